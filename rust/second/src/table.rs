//! The program table: fields read into trees, refusals 1 to 6.

use super::number::{ABSENT, OPERATORS};
use super::tree::{Branch, Definition, Form, Node, Program};
use super::{refused, Refusal};
use std::collections::{BTreeMap, BTreeSet};
use std::rc::Rc;

const NODES: usize = 256;
const DEFINITIONS: usize = 32;

/// A field taken off the front of some bytes: tag, body, rest.
pub fn take_field(bytes: &[u8]) -> Option<(u8, &[u8], &[u8])> {
    let (head, rest) = bytes.split_first_chunk::<3>()?;
    let length = usize::from(u16::from_be_bytes([head[1], head[2]]));
    let (body, rest) = rest.split_at_checked(length)?;
    Some((head[0], body, rest))
}

/// What the bytes of a body stand for.
#[derive(Clone, Copy, PartialEq, Eq)]
enum Item {
    Constant,
    ParameterCount,
    Parameter,
    /// A variable that is read.
    Read,
    /// A variable that a rep takes.
    Rep,
    Operator,
    Slot,
    Node,
    Definition,
}

impl Item {
    fn width(self) -> usize {
        if self == Item::Constant {
            4
        } else {
            1
        }
    }

    /// Whether these bytes lie in the item's range.
    fn holds(self, bytes: &[u8]) -> bool {
        match self {
            Item::Constant => bytes != ABSENT.to_be_bytes(),
            Item::ParameterCount => bytes[0] <= 4,
            Item::Parameter => bytes[0] <= 3,
            Item::Read | Item::Rep => bytes[0] <= 15,
            Item::Operator => bytes[0] <= 8,
            Item::Slot => (1..=15).contains(&bytes[0]),
            Item::Node | Item::Definition => true,
        }
    }
}

/// What follows the kind byte. A call has its arguments after this.
fn layout(kind: u8) -> Option<&'static [Item]> {
    use Item::*;
    Some(match kind {
        0 => &[Constant],
        1 => &[Parameter],
        2 => &[Read],
        3 => &[Operator, Node, Node],
        4 => &[Node],
        5 => &[Rep, Node, Node],
        6 | 7 => &[Node, Node, Node],
        8 => &[Slot, Node],
        9 | 13 => &[Slot],
        10 => &[Operator, Node, Node],
        11 => &[Definition, Node, Node],
        12 => &[Definition],
        _ => return None,
    })
}

/// The table as far as it has been read.
#[derive(Default)]
struct Table {
    nodes: usize,
    /// Trees given and not yet named.
    unnamed: BTreeMap<usize, Node>,
    definitions: Vec<Rc<Definition>>,
    slots: BTreeSet<u8>,
    variables: BTreeSet<u8>,
}

/// Reads a program and tests all of it.
pub fn read(program: &[u8]) -> Result<Program, Refusal> {
    let mut table = Table::default();
    let mut bytes = program;
    for place in 0.. {
        if bytes.is_empty() {
            break;
        }
        let Some((tag, body, rest)) = take_field(bytes) else {
            return refused(1, place);
        };
        let read = match tag {
            1 => table.node(body).map(|()| None),
            2 => table.definition(body).map(|()| None),
            3 => table.main(body).map(Some),
            _ => Err(1),
        };
        match read {
            Err(number) => return refused(number, place),
            Ok(Some(main)) => return table.end(main, rest),
            Ok(None) => bytes = rest,
        }
    }
    refused(6, 0)
}

impl Table {
    fn node(&mut self, body: &[u8]) -> Result<(), u32> {
        let Some((kind, body)) = body.split_first() else {
            return Err(1);
        };
        if self.nodes == NODES {
            return Err(2);
        }
        let Some(front) = layout(*kind) else {
            return Err(3);
        };
        let mut items = front.to_vec();
        if *kind == 12 {
            let d = body.first().ok_or(1_u32)?;
            let called = self.definitions.get(usize::from(*d)).ok_or(4_u32)?;
            items.resize(1 + usize::from(called.parameters), Item::Node);
        }
        self.test(&items, body)?;
        let form = self.form(*kind, body);
        self.unnamed.insert(self.nodes, Node::new(self.nodes, form));
        self.nodes += 1;
        Ok(())
    }

    fn definition(&mut self, body: &[u8]) -> Result<(), u32> {
        if self.definitions.len() == DEFINITIONS {
            return Err(2);
        }
        self.test(&[Item::ParameterCount, Item::Node], body)?;
        let tree = *self.name(body[1]);
        self.definitions.push(Rc::new(Definition::new(self.definitions.len(), body[0], tree)));
        Ok(())
    }

    fn main(&mut self, body: &[u8]) -> Result<Node, u32> {
        self.test(&[Item::Node], body)?;
        Ok(*self.name(body[0]))
    }

    fn end(self, main: Node, rest: &[u8]) -> Result<Program, Refusal> {
        if !rest.is_empty() || !self.unnamed.is_empty() {
            return refused(6, 0);
        }
        let program = Program { definitions: self.definitions, main };
        program.test_trees()?;
        Ok(program)
    }

    /// The rows from 'wrong length' to 'taken already', each over the whole body.
    fn test(&self, items: &[Item], body: &[u8]) -> Result<(), u32> {
        if body.len() != items.iter().map(|item| item.width()).sum::<usize>() {
            return Err(1);
        }
        let mut rest = body;
        let mut held = Vec::new();
        for item in items {
            let (bytes, after) = rest.split_at(item.width());
            held.push((*item, bytes));
            rest = after;
        }
        if held.iter().any(|(item, bytes)| !item.holds(bytes)) {
            return Err(3);
        }
        if held.iter().any(|(item, bytes)| !self.given(*item, bytes[0])) {
            return Err(4);
        }
        let mut here = BTreeSet::new();
        if held.iter().any(|(item, bytes)| self.taken(*item, bytes[0], &mut here)) {
            return Err(5);
        }
        Ok(())
    }

    fn given(&self, item: Item, byte: u8) -> bool {
        match item {
            Item::Node => usize::from(byte) < self.nodes,
            Item::Definition => usize::from(byte) < self.definitions.len(),
            _ => true,
        }
    }

    /// Whether this is taken, in an earlier field or (`here`) in this one.
    fn taken(&self, item: Item, byte: u8, here: &mut BTreeSet<u8>) -> bool {
        match item {
            Item::Node => !self.unnamed.contains_key(&usize::from(byte)) || !here.insert(byte),
            Item::Slot => self.slots.contains(&byte),
            Item::Rep => self.variables.contains(&byte),
            _ => false,
        }
    }

    /// Takes the tree of a node that is given and not yet named.
    fn name(&mut self, byte: u8) -> Box<Node> {
        Box::new(self.unnamed.remove(&usize::from(byte)).expect("given and not taken"))
    }

    /// A tested body as a tree; takes what it names.
    fn form(&mut self, kind: u8, body: &[u8]) -> Form {
        match (kind, body) {
            (0, &[b3, b2, b1, b0]) => Form::Constant(i32::from_be_bytes([b3, b2, b1, b0])),
            (1, &[p]) => Form::Parameter(p),
            (2, &[v]) => Form::Variable(v),
            (3, &[o, left, right]) => {
                Form::Operator { operator: OPERATORS[usize::from(o)], left: self.name(left), right: self.name(right) }
            }
            (4, &[child]) => Form::Sense { child: self.name(child) },
            (5, &[variable, initial, update]) => {
                self.variables.insert(variable);
                Form::Rep { variable, initial: self.name(initial), update: self.name(update) }
            }
            (6, &[condition, then, otherwise]) => Form::If {
                condition: self.name(condition),
                then: Branch::new(self.name(then)),
                otherwise: Branch::new(self.name(otherwise)),
            },
            (7, &[condition, then, otherwise]) => {
                Form::Mux { condition: self.name(condition), then: self.name(then), otherwise: self.name(otherwise) }
            }
            (8, &[slot, child]) => {
                self.slots.insert(slot);
                Form::Nbr { slot, child: self.name(child) }
            }
            (9, &[slot]) => {
                self.slots.insert(slot);
                Form::NbrRange { slot }
            }
            (13, &[slot]) => {
                self.slots.insert(slot);
                Form::NbrLag { slot }
            }
            (10, &[o, initial, field]) => Form::FoldByOperator {
                operator: OPERATORS[usize::from(o)],
                initial: self.name(initial),
                field: self.name(field),
            },
            (11, &[d, initial, field]) => Form::FoldByDefinition {
                definition: Rc::clone(&self.definitions[usize::from(d)]),
                initial: self.name(initial),
                field: self.name(field),
            },
            (12, &[d, ref arguments @ ..]) => Form::Call {
                definition: Rc::clone(&self.definitions[usize::from(d)]),
                arguments: arguments.iter().map(|argument| *self.name(*argument)).collect(),
            },
            _ => unreachable!("kind and length are tested"),
        }
    }
}
