//! Accepted programs, grown at random within 01's limits.

use crate::random::Random;
use crate::table::{Draft, Tree, MEASURES};

/// How a program is to be grown.
#[derive(Clone, Copy, Debug)]
pub struct Shape {
    pub nodes: usize,
    pub definitions: usize,
    /// Main's cost stays at or below this.
    pub cost: u64,
    /// Slots and variables that are left free for others.
    pub spare: usize,
    /// Percent: how much of a budget goes into one operand.
    pub deep: usize,
    /// The kinds of measures that may stand in it.
    pub measures: &'static [u8],
}

impl Shape {
    pub fn any(random: &mut Random) -> Shape {
        let small = Shape { nodes: 12, definitions: 0, cost: 400, spare: 0, deep: 20, measures: &MEASURES };
        match random.below(10) {
            0 => Shape { nodes: random.between(1, 5), ..small },
            1 | 2 => Shape { nodes: random.between(6, 30), ..small },
            3..=6 => Shape { nodes: random.between(15, 60), definitions: random.between(1, 5), ..small },
            7 => Shape { nodes: random.between(60, 256), definitions: random.between(0, 12), cost: 4_000, ..small },
            8 => Shape { nodes: random.between(100, 256), definitions: 32, cost: 4_000, ..small },
            _ => Shape {
                nodes: random.between(200, 256),
                definitions: random.between(0, 3),
                deep: 92,
                cost: 2_000,
                ..small
            },
        }
    }
}

/// A definition that later trees may use.
#[derive(Clone, Copy)]
struct Made {
    parameters: u8,
    spatial: bool,
    called: bool,
    cost: u64,
}

struct Grower<'r> {
    random: &'r mut Random,
    shape: Shape,
    slots: Vec<u8>,
    /// Slots promised to fields still to come.
    promised: usize,
    variables: Vec<u8>,
    made: Vec<Made>,
    // The tree that is growing:
    parameters: u8,
    open: Vec<u8>,
    may_be_spatial: bool,
    spatial: bool,
    cost: u64,
}

/// Grows a program that the check accepts.
pub fn accepted(shape: Shape, random: &mut Random) -> Draft {
    let mut slots: Vec<u8> = (1..=15).collect();
    let mut variables: Vec<u8> = (0..=15).collect();
    random.shuffle(&mut slots);
    random.shuffle(&mut variables);
    slots.truncate(15 - shape.spare);
    variables.truncate(16 - shape.spare);
    let mut grower = Grower {
        random,
        shape,
        slots,
        promised: 0,
        variables,
        made: vec![],
        parameters: 0,
        open: vec![],
        may_be_spatial: true,
        spatial: false,
        cost: 0,
    };
    let mut left = shape.nodes;
    let mut definitions = vec![];
    for more in (0..shape.definitions).rev() {
        // Each definition to come needs a node, main one more.
        let free = left.saturating_sub(more + 1);
        if free == 0 {
            break;
        }
        let budget = grower.random.between(1, (free / (more + 1)).clamp(1, 24) + free.min(4) - 1);
        let parameters = grower.random.weighted(&[(2, 0), (2, 1), (5, 2), (1, 3), (1, 4)]);
        let plain = grower.random.chance(55);
        let body = grower.tree(parameters, !plain, budget.min(free));
        left -= body.size();
        grower.made.push(Made { parameters, spatial: grower.spatial, called: false, cost: grower.cost });
        definitions.push((parameters, body));
    }
    let main = grower.tree(0, true, left.max(1));
    Draft { definitions, main, orphans: vec![] }
}

/// Adds nodes around main until the program has exactly this many.
pub fn pad(draft: &mut Draft, nodes: usize) {
    while draft.size() < nodes {
        let more = match nodes - draft.size() {
            1 => {
                draft.main = Tree::new(4, &[], vec![std::mem::replace(&mut draft.main, Tree::constant(0))]);
                continue;
            }
            3 => Tree::new(4, &[], vec![Tree::constant(1)]),
            _ => Tree::constant(0),
        };
        draft.main = Tree::sum(std::mem::replace(&mut draft.main, Tree::constant(0)), more);
    }
}

impl Grower<'_> {
    fn tree(&mut self, parameters: u8, may_be_spatial: bool, budget: usize) -> Tree {
        self.parameters = parameters;
        self.may_be_spatial = may_be_spatial;
        self.open.clear();
        self.spatial = false;
        self.cost = 0;
        self.number(budget)
    }

    fn node(&mut self, kind: u8, items: &[u8], children: Vec<Tree>) -> Tree {
        self.cost += 1;
        Tree::new(kind, items, children)
    }

    /// Splits a budget for operands; each gets at least 1.
    fn split(&mut self, budget: usize, parts: usize) -> Vec<usize> {
        let mut shares = vec![1; parts];
        let mut left = budget - parts;
        if self.random.chance(self.shape.deep) {
            shares[self.random.below(parts)] += left;
            return shares;
        }
        for share in &mut shares[1..] {
            let more = self.random.below(left + 1);
            *share += more;
            left -= more;
        }
        shares[0] += left;
        self.random.shuffle(&mut shares);
        shares
    }

    fn can_sense_space(&self) -> bool {
        self.may_be_spatial && self.slots.len() > self.promised
    }

    fn operator(&mut self) -> u8 {
        self.random.weighted(&[(6, 0), (5, 1), (4, 2), (3, 3), (2, 4), (2, 5), (2, 6), (2, 7), (2, 8)])
    }

    /// Definitions that a call or a fold may use now.
    fn callable(&self, budget: usize) -> Vec<usize> {
        let fits = |made: &Made| {
            usize::from(made.parameters) < budget
                && self.cost + made.cost + budget as u64 <= self.shape.cost
                && (!made.spatial || !made.called && self.may_be_spatial)
        };
        (0..self.made.len()).filter(|d| fits(&self.made[*d])).collect()
    }

    fn folding(&self, budget: usize) -> Vec<usize> {
        let fits = |made: &Made| {
            made.parameters == 2 && !made.spatial && self.cost + 15 * made.cost + budget as u64 <= self.shape.cost
        };
        (0..self.made.len()).filter(|d| fits(&self.made[*d])).collect()
    }

    fn leaf(&mut self) -> Tree {
        if !self.open.is_empty() && self.random.chance(50) {
            let v = self.random.pick(&self.open.clone());
            return self.node(2, &[v], vec![]);
        }
        if self.parameters > 0 && self.random.chance(60) {
            let p = self.random.below(self.parameters.into()) as u8;
            return self.node(1, &[p], vec![]);
        }
        let number = self.random.number();
        self.node(0, &number.to_be_bytes(), vec![])
    }

    /// A number, often 0 or 1.
    fn condition(&mut self, budget: usize) -> Tree {
        if budget >= 2 && self.random.chance(40) {
            let sensor = self.random.below(3) as i32;
            let sensor = self.node(0, &sensor.to_be_bytes(), vec![]);
            return self.node(4, &[], vec![sensor]);
        }
        if budget >= 3 && self.random.chance(60) {
            let shares = self.split(budget - 1, 2);
            let left = self.number(shares[0]);
            let right = self.number(shares[1]);
            let o = self.random.between(4, 8) as u8;
            return self.node(3, &[o], vec![left, right]);
        }
        if budget == 1 && self.random.chance(70) {
            let number = self.random.below(3) as i32;
            return self.node(0, &number.to_be_bytes(), vec![]);
        }
        self.number(budget)
    }

    /// A number tree of at most `budget` nodes.
    fn number(&mut self, budget: usize) -> Tree {
        let callable = self.callable(budget);
        let folding = self.folding(budget);
        let space = self.can_sense_space();
        let uncalled = callable.iter().any(|d| self.made[*d].spatial);
        let when = |possible: bool, weight: usize| if possible { weight } else { 0 };
        let kind: u8 = self.random.weighted(&[
            (when(budget < 4, 3) + 1, 0),
            (when(budget >= 3, 12), 3),
            (when(budget >= 2, 2), 4),
            (when(budget >= 3 && self.may_be_spatial && !self.variables.is_empty(), 9), 5),
            (when(budget >= 4, 8), 6),
            (when(budget >= 4, 5), 7),
            (when(budget >= 3 && space, 8), 10),
            (when(budget >= 3 && space && !folding.is_empty(), 8), 11),
            (when(!callable.is_empty(), if uncalled { 14 } else { 5 }), 12),
        ]);
        match kind {
            0 => self.leaf(),
            3 => {
                let shares = self.split(budget - 1, 2);
                let o = self.operator();
                let left = self.number(shares[0]);
                let right = self.number(shares[1]);
                self.node(3, &[o], vec![left, right])
            }
            4 => {
                if self.random.chance(60) {
                    let sensor = self.random.pick(&[0, 1, 2, 3, 14, 15, 16, 17, 31, 32, 33, -1, i32::MAX, -i32::MAX]);
                    let sensor = self.node(0, &i32::to_be_bytes(sensor), vec![]);
                    return self.node(4, &[], vec![sensor]);
                }
                let child = self.number(budget - 1);
                self.node(4, &[], vec![child])
            }
            5 => {
                let v = self.variables.pop().expect("there was one");
                self.spatial = true;
                let shares = self.split(budget - 1, 2);
                let initial = self.number(shares[0].min(shares[1]));
                self.open.push(v);
                let update = self.number(shares[0].max(shares[1]));
                self.open.pop();
                self.node(5, &[v], vec![initial, update])
            }
            6 | 7 => {
                let shares = self.split(budget - 1, 3);
                let condition = self.condition(shares[0]);
                let then = self.number(shares[1]);
                let otherwise = self.number(shares[2]);
                self.node(kind, &[], vec![condition, then, otherwise])
            }
            10 | 11 => {
                let item = match kind {
                    10 => self.operator(),
                    _ => {
                        let d = self.random.pick(&folding);
                        self.cost += 15 * self.made[d].cost;
                        d as u8
                    }
                };
                let shares = self.split(budget - 1, 2);
                self.promised += 1;
                let initial = self.number(shares[0].min(shares[1]));
                self.promised -= 1;
                let field = self.field(shares[0].max(shares[1]));
                self.node(kind, &[item], vec![initial, field])
            }
            _ => {
                let spatial: Vec<usize> = callable.iter().copied().filter(|d| self.made[*d].spatial).collect();
                let d = match !spatial.is_empty() && self.random.chance(60) {
                    true => self.random.pick(&spatial),
                    false => self.random.pick(&callable),
                };
                let made = &mut self.made[d];
                self.cost += made.cost;
                self.spatial |= made.spatial;
                made.called = true;
                let parameters = usize::from(made.parameters);
                let mut arguments = vec![];
                if parameters > 0 {
                    for share in self.split(budget - 1, parameters) {
                        arguments.push(self.number(share));
                    }
                }
                self.node(12, &[d as u8], arguments)
            }
        }
    }

    /// A field tree of at most `budget` nodes; a slot is free for it.
    fn field(&mut self, budget: usize) -> Tree {
        self.spatial = true;
        let two = self.slots.len() > self.promised + 1;
        let when = |possible: bool, weight: usize| if possible { weight } else { 0 };
        let form = self.random.weighted(&[
            (when(budget < 4, 4) + 1, 9),
            (when(budget >= 2, 7), 8),
            (when(budget >= 3 && two, 5), 20),
            (when(budget >= 3, 4), 21),
            (when(budget >= 4 && two, 3), 6),
        ]);
        match form {
            9 => {
                let slot = self.slots.pop().expect("one was free");
                let measure = self.random.pick(self.shape.measures);
                self.node(measure, &[slot], vec![])
            }
            8 => {
                let slot = self.slots.pop().expect("one was free");
                let child = self.number(budget - 1);
                self.node(8, &[slot], vec![child])
            }
            20 => {
                let shares = self.split(budget - 1, 2);
                let o = self.operator();
                self.promised += 1;
                let left = self.field(shares[0]);
                self.promised -= 1;
                let right = self.field(shares[1]);
                self.node(3, &[o], vec![left, right])
            }
            21 => {
                let shares = self.split(budget - 1, 2);
                let o = self.operator();
                if self.random.chance(50) {
                    self.promised += 1;
                    let left = self.number(shares[0]);
                    self.promised -= 1;
                    let right = self.field(shares[1]);
                    self.node(3, &[o], vec![left, right])
                } else {
                    let left = self.field(shares[0]);
                    let right = self.number(shares[1]);
                    self.node(3, &[o], vec![left, right])
                }
            }
            _ => {
                let shares = self.split(budget - 1, 3);
                self.promised += 2;
                let condition = self.condition(shares[0]);
                self.promised -= 1;
                let then = self.field(shares[1]);
                self.promised -= 1;
                let otherwise = self.field(shares[2]);
                self.node(6, &[], vec![condition, then, otherwise])
            }
        }
    }
}

/// Definitions that each call the one before twice; level n costs 2^(n+2) - 3.
pub fn tower(levels: usize) -> Vec<(u8, Tree)> {
    let mut definitions = vec![(0, Tree::constant(1))];
    for level in 1..levels {
        let call = || Tree::new(12, &[level as u8 - 1], vec![]);
        definitions.push((0, Tree::sum(call(), call())));
    }
    definitions
}

/// A tree that costs exactly this, from calls of a tower's levels below `levels`.
pub fn spend(levels: usize, cost: u64) -> Tree {
    let mut tree = Tree::constant(0);
    let mut spent = 1;
    for level in (0..levels).rev() {
        let step = (1_u64 << (level + 2)) - 1;
        while spent + step <= cost {
            tree = Tree::sum(tree, Tree::new(12, &[level as u8], vec![]));
            spent += step;
        }
    }
    while spent < cost {
        tree = Tree::new(4, &[], vec![tree]);
        spent += 1;
    }
    tree
}

/// A program whose main costs exactly this (from 40,000 to some millions), with or without a fold by definition.
pub fn costing(cost: u64, random: &mut Random) -> Draft {
    if random.chance(50) {
        let levels = random.between(14, 20);
        return Draft { definitions: tower(levels), main: spend(levels, cost), orphans: vec![] };
    }
    // A fold with its operands costs 3 and 15 times the body; senses make up the rest.
    let levels = random.between(12, 16);
    let mut definitions = tower(levels);
    definitions.push((2, spend(levels, (cost - 3) / 15)));
    let field = Tree::new(random.pick(&MEASURES), &[random.between(1, 15) as u8], vec![]);
    let mut main = Tree::new(11, &[levels as u8], vec![Tree::constant(2), field]);
    for _ in 0..(cost - 3) % 15 {
        main = Tree::new(4, &[], vec![main]);
    }
    Draft { definitions, main, orphans: vec![] }
}

/// A program whose main costs 2^bits and `more` (up to 1,000,000), for 31 to 33 bits.
pub fn costing_bits(bits: u32, more: u64, random: &mut Random) -> Draft {
    let levels = random.between(bits as usize - 3, 32);
    Draft { definitions: tower(levels), main: spend(levels, (1 << bits) + more), orphans: vec![] }
}

/// A program whose main costs 2^64 and `more` (up to 30), from definitions that each call the one before four times.
pub fn costing_64_bits(more: usize) -> Draft {
    let calls = |d: u8, times: usize| {
        let call = || Tree::new(12, &[d], vec![]);
        (1..times).fold(call(), |tree, _| Tree::sum(tree, call()))
    };
    let mut definitions = vec![(0, Tree::sum(Tree::constant(1), Tree::constant(1)))];
    for level in 1..31 {
        definitions.push((0, calls(level - 1, 4)));
    }
    // Level n costs (4^(n+2) - 7) / 3, so three calls of level 30 and two sums cost 2^64 - 2.
    let main = (0..more + 2).fold(calls(30, 3), |tree, _| Tree::new(4, &[], vec![tree]));
    Draft { definitions, main, orphans: vec![] }
}

/// 000's distance-to, sensor 1; by this kind of measure, which is nbr-range in 000.
pub fn distance_to(measure: u8, slots: [u8; 2], variable: u8) -> Draft {
    let parameter = |p: u8| Tree::new(1, &[p], vec![]);
    let less = Tree::new(3, &[4], vec![parameter(0), parameter(1)]);
    let min = Tree::new(6, &[], vec![less, parameter(0), parameter(1)]);
    let nbr = Tree::new(8, &[slots[0]], vec![Tree::new(2, &[variable], vec![])]);
    let sum = Tree::sum(nbr, Tree::new(measure, &[slots[1]], vec![]));
    let fold = Tree::new(11, &[0], vec![Tree::constant(i32::MAX), sum]);
    let mux = Tree::new(7, &[], vec![parameter(0), Tree::constant(0), fold]);
    let rep = Tree::new(5, &[variable], vec![Tree::constant(i32::MAX), mux]);
    let sense = Tree::new(4, &[], vec![Tree::constant(1)]);
    Draft { definitions: vec![(2, min), (1, rep)], main: Tree::new(12, &[1], vec![sense]), orphans: vec![] }
}

/// A calculation over constants near the limits, with many divisions and with what decides their order.
pub fn calculation(random: &mut Random) -> Draft {
    fn number(depth: usize, parameters: usize, random: &mut Random) -> Tree {
        if depth == 0 || random.chance(15) {
            if parameters > 0 && random.chance(60) {
                return Tree::new(1, &[random.below(parameters) as u8], vec![]);
            }
            let edge = random.pick(&[0, 0, i32::MAX, i32::MAX, -i32::MAX, -1, 2]);
            return Tree::constant(if random.chance(40) { edge } else { random.number() });
        }
        let next = |random: &mut Random| number(depth - 1, parameters, random);
        match random.below(10) {
            0..=3 => Tree::new(3, &[random.below(4) as u8], vec![next(random), next(random)]),
            4 | 5 => Tree::new(3, &[3], vec![next(random), next(random)]),
            6 => Tree::new(3, &[random.between(4, 8) as u8], vec![next(random), next(random)]),
            7 | 8 => Tree::new(7, &[], vec![next(random), next(random), next(random)]),
            _ => Tree::new(6, &[], vec![Tree::constant(random.below(3) as i32), next(random), next(random)]),
        }
    }
    let parameters = random.between(0, 4);
    let body = number(2, parameters, random);
    let arguments = (0..parameters).map(|_| number(1, 0, random)).collect();
    let call = Tree::new(12, &[0], arguments);
    // Both operands of a fold may divide by 0; two parameters are needed to fold by the definition.
    let left = match random.chance(if parameters == 2 { 70 } else { 20 }) {
        true => {
            let nbr = Tree::new(8, &[random.between(1, 15) as u8], vec![number(2, 0, random)]);
            let (kind, item) = if parameters == 2 { (11, 0) } else { (10, random.below(9) as u8) };
            Tree::new(kind, &[item], vec![number(2, 0, random), nbr])
        }
        false => number(3, 0, random),
    };
    let main = Tree::new(3, &[random.below(9) as u8], vec![left, call]);
    Draft { definitions: vec![(parameters as u8, body)], main, orphans: vec![] }
}
