//! Programs as trees: sorts, spatial definitions, cost, and refusals 7 to 10.

use super::number::Operator;
use super::{refused, Refusal};
use std::collections::{BTreeMap, BTreeSet};
use std::rc::Rc;

#[derive(Clone, Copy, Debug, PartialEq, Eq)]
pub enum Sort {
    Number,
    Field,
}

/// A node with all that stands under it.
#[derive(Debug)]
pub struct Node {
    /// Its number by appearance.
    pub number: usize,
    pub form: Form,
    pub sort: Sort,
}

#[derive(Debug)]
pub enum Form {
    Constant(i32),
    Parameter(u8),
    Variable(u8),
    Operator { operator: Operator, left: Box<Node>, right: Box<Node> },
    Sense { child: Box<Node> },
    Rep { variable: u8, initial: Box<Node>, update: Box<Node> },
    If { condition: Box<Node>, then: Branch, otherwise: Branch },
    Mux { condition: Box<Node>, then: Box<Node>, otherwise: Box<Node> },
    Nbr { slot: u8, child: Box<Node> },
    NbrRange { slot: u8 },
    NbrLag { slot: u8 },
    FoldByOperator { operator: Operator, initial: Box<Node>, field: Box<Node> },
    FoldByDefinition { definition: Rc<Definition>, initial: Box<Node>, field: Box<Node> },
    Call { definition: Rc<Definition>, arguments: Vec<Node> },
}

/// A branch of an if, with the variables to make absent when the other one is taken.
#[derive(Debug)]
pub struct Branch {
    pub node: Box<Node>,
    pub variables: BTreeSet<u8>,
}

impl Branch {
    pub fn new(node: Box<Node>) -> Branch {
        let mut variables = BTreeSet::new();
        node.rep_variables(&mut variables);
        Branch { node, variables }
    }
}

/// A definition; what its body is asked for at each call is noted once, here.
#[derive(Debug)]
pub struct Definition {
    pub number: usize,
    pub parameters: u8,
    pub body: Node,
    pub spatial: bool,
    pub cost: u128,
    pub variables: BTreeSet<u8>,
}

impl Definition {
    pub fn new(number: usize, parameters: u8, body: Node) -> Definition {
        let mut variables = BTreeSet::new();
        body.rep_variables(&mut variables);
        Definition { number, parameters, spatial: body.is_spatial(), cost: body.cost(), variables, body }
    }
}

#[derive(Debug)]
pub struct Program {
    pub definitions: Vec<Rc<Definition>>,
    pub main: Node,
}

impl Node {
    pub fn new(number: usize, form: Form) -> Node {
        let sort = match &form {
            Form::Nbr { .. } | Form::NbrRange { .. } | Form::NbrLag { .. } => Sort::Field,
            Form::Operator { left, right, .. } if left.sort == Sort::Field || right.sort == Sort::Field => Sort::Field,
            Form::If { then, .. } => then.node.sort,
            _ => Sort::Number,
        };
        Node { number, form, sort }
    }

    fn children(&self) -> Vec<&Node> {
        match &self.form {
            Form::Constant(_) | Form::Parameter(_) | Form::Variable(_) => vec![],
            Form::NbrRange { .. } | Form::NbrLag { .. } => vec![],
            Form::Sense { child } | Form::Nbr { child, .. } => vec![child],
            Form::Operator { left, right, .. } => vec![left, right],
            Form::Rep { initial, update, .. } => vec![initial, update],
            Form::If { condition, then, otherwise } => vec![condition, &then.node, &otherwise.node],
            Form::Mux { condition, then, otherwise } => vec![condition, then, otherwise],
            Form::FoldByOperator { initial, field, .. } => vec![initial, field],
            Form::FoldByDefinition { initial, field, .. } => vec![initial, field],
            Form::Call { arguments, .. } => arguments.iter().collect(),
        }
    }

    /// Shows each node of this tree to `see`; called definitions have trees of their own.
    fn walk<'a>(&'a self, see: &mut impl FnMut(&'a Node)) {
        see(self);
        for child in self.children() {
            child.walk(see);
        }
    }

    /// Collects the variables of reps here and in definitions called or folded by.
    fn rep_variables(&self, variables: &mut BTreeSet<u8>) {
        self.walk(&mut |node| match &node.form {
            Form::Rep { variable, .. } => {
                variables.insert(*variable);
            }
            Form::FoldByDefinition { definition, .. } | Form::Call { definition, .. } => {
                variables.extend(&definition.variables);
            }
            _ => {}
        });
    }

    fn is_spatial(&self) -> bool {
        let mut spatial = false;
        self.walk(&mut |node| {
            spatial |= match &node.form {
                Form::Rep { .. } | Form::Nbr { .. } | Form::NbrRange { .. } | Form::NbrLag { .. } => true,
                Form::Call { definition, .. } => definition.spatial,
                _ => false,
            }
        });
        spatial
    }

    /// The cost; one too large to write down is the largest there is.
    fn cost(&self) -> u128 {
        let mut cost: u128 = 0;
        self.walk(&mut |node| {
            let more = match &node.form {
                Form::Call { definition, .. } => definition.cost,
                Form::FoldByDefinition { definition, .. } => definition.cost.saturating_mul(15),
                _ => 0,
            };
            cost = cost.saturating_add(1).saturating_add(more);
        });
        cost
    }

    /// Whether an operand has the wrong sort.
    fn breaks_sort(&self) -> bool {
        let field = |node: &Node| node.sort == Sort::Field;
        match &self.form {
            Form::Operator { .. } => false,
            Form::If { condition, then, otherwise } => field(condition) || then.node.sort != otherwise.node.sort,
            Form::FoldByOperator { initial, field: third, .. } => field(initial) || !field(third),
            Form::FoldByDefinition { initial, field: third, .. } => field(initial) || !field(third),
            _ => self.children().into_iter().any(field),
        }
    }

    /// Collects misread parameters and variables; `open` holds the variables of the reps whose update this is under.
    fn misreads(&self, parameters: u8, open: &BTreeSet<u8>, offending: &mut BTreeSet<usize>) {
        match &self.form {
            Form::Parameter(p) if *p >= parameters => {
                offending.insert(self.number);
            }
            Form::Variable(v) if !open.contains(v) => {
                offending.insert(self.number);
            }
            Form::Rep { variable, initial, update } => {
                initial.misreads(parameters, open, offending);
                let mut open = open.clone();
                open.insert(*variable);
                update.misreads(parameters, &open, offending);
            }
            _ => {
                for child in self.children() {
                    child.misreads(parameters, open, offending);
                }
            }
        }
    }
}

/// The most that main may cost.
const COST: u128 = 1_000_000;

impl Program {
    /// Every tree with its parameter count.
    fn trees(&self) -> Vec<(u8, &Node)> {
        let bodies = self.definitions.iter().map(|definition| (definition.parameters, &definition.body));
        bodies.chain([(0, &self.main)]).collect()
    }

    /// Refusals 7 to 10.
    pub fn test_trees(&self) -> Result<(), Refusal> {
        let rows = [(7, self.sorts_broken()), (8, self.misread()), (9, self.misused())];
        for (number, offending) in rows {
            if let Some(lowest) = offending.first() {
                return refused(number, *lowest);
            }
        }
        if self.main.cost() > COST {
            return refused(10, 0);
        }
        Ok(())
    }

    fn sorts_broken(&self) -> BTreeSet<usize> {
        let mut offending = BTreeSet::new();
        for (_, tree) in self.trees() {
            if tree.sort == Sort::Field {
                offending.insert(tree.number);
            }
            tree.walk(&mut |node| {
                if node.breaks_sort() {
                    offending.insert(node.number);
                }
            });
        }
        offending
    }

    fn misread(&self) -> BTreeSet<usize> {
        let mut offending = BTreeSet::new();
        for (parameters, tree) in self.trees() {
            tree.misreads(parameters, &BTreeSet::new(), &mut offending);
        }
        offending
    }

    /// Second calls of spatial definitions, and folds by what may not fold.
    fn misused(&self) -> BTreeSet<usize> {
        let mut offending = BTreeSet::new();
        let mut calls: BTreeMap<usize, BTreeSet<usize>> = BTreeMap::new();
        for (_, tree) in self.trees() {
            tree.walk(&mut |node| match &node.form {
                Form::Call { definition, .. } if definition.spatial => {
                    calls.entry(definition.number).or_default().insert(node.number);
                }
                Form::FoldByDefinition { definition, .. } if definition.spatial || definition.parameters != 2 => {
                    offending.insert(node.number);
                }
                _ => {}
            });
        }
        for callers in calls.values() {
            offending.extend(callers.iter().skip(1));
        }
        offending
    }
}
