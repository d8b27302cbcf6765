//! Small hands for writing tables, networks and lists.
#![allow(dead_code)]

pub const INF: i32 = i32::MAX;
pub const FLOOR: i32 = -INF;
pub const ABSENT: i32 = i32::MIN;
pub const CELLS: usize = 8_720;

pub const ADD: u8 = 0;
pub const SUB: u8 = 1;
pub const MUL: u8 = 2;
pub const DIV: u8 = 3;
pub const LESS: u8 = 4;
pub const GREATER: u8 = 5;

/// A program table in the making.
#[derive(Clone, Default)]
pub struct Table {
    pub bytes: Vec<u8>,
    pub nodes: usize,
    pub definitions: usize,
}

impl Table {
    pub fn new() -> Table {
        Table::default()
    }

    pub fn field(&mut self, tag: u8, body: &[u8]) -> &mut Table {
        self.bytes.push(tag);
        self.bytes.extend((body.len() as u16).to_be_bytes());
        self.bytes.extend(body);
        self
    }

    /// A node from its kind and items; its number.
    pub fn node(&mut self, body: &[u8]) -> u8 {
        self.field(1, body);
        self.nodes += 1;
        (self.nodes - 1) as u8
    }

    pub fn constant(&mut self, number: i32) -> u8 {
        let mut body = vec![0];
        body.extend(number.to_be_bytes());
        self.node(&body)
    }

    pub fn parameter(&mut self, p: u8) -> u8 {
        self.node(&[1, p])
    }

    pub fn variable(&mut self, v: u8) -> u8 {
        self.node(&[2, v])
    }

    pub fn define(&mut self, parameters: u8, body: u8) -> u8 {
        self.field(2, &[parameters, body]);
        self.definitions += 1;
        (self.definitions - 1) as u8
    }

    pub fn main(&mut self, node: u8) -> Vec<u8> {
        self.field(3, &[node]);
        self.bytes.clone()
    }

    /// (rep v 0 (+ v 1))
    pub fn counter(&mut self, v: u8) -> u8 {
        let zero = self.constant(0);
        let x = self.variable(v);
        let one = self.constant(1);
        let sum = self.node(&[3, ADD, x, one]);
        self.node(&[5, v, zero, sum])
    }

    /// A leaf that is a field.
    pub fn range(&mut self, slot: u8) -> u8 {
        self.node(&[9, slot])
    }

    /// Another one: nbr-range with another measure.
    pub fn lag(&mut self, slot: u8) -> u8 {
        self.node(&[13, slot])
    }

    /// (/ 1 (- 1 (sense 0))): 1, but where sensor 0 is lit it faults.
    pub fn faults_when_lit(&mut self) -> u8 {
        let one = self.constant(1);
        let whole = self.constant(1);
        let sensor = self.constant(0);
        let sense = self.node(&[4, sensor]);
        let rest = self.node(&[3, SUB, whole, sense]);
        self.node(&[3, DIV, one, rest])
    }

    /// (fold + 0 field)
    pub fn total(&mut self, field: u8) -> u8 {
        let zero = self.constant(0);
        self.node(&[10, ADD, zero, field])
    }
}

/// The distance-to of 000 with sensor 1: slot 1 sends d, slot 2 the range.
pub fn distance_to() -> Vec<u8> {
    distance_by(9)
}

/// The same by this kind of measure: nbr-range, or nbr-lag in its place.
pub fn distance_by(kind: u8) -> Vec<u8> {
    let mut t = Table::new();
    let a = t.parameter(0);
    let b = t.parameter(1);
    let less = t.node(&[3, LESS, a, b]);
    let a = t.parameter(0);
    let b = t.parameter(1);
    let smaller = t.node(&[6, less, a, b]);
    let min = t.define(2, smaller);
    let source = t.parameter(0);
    let start = t.constant(INF);
    let zero = t.constant(0);
    let d = t.variable(0);
    let nbr = t.node(&[8, 1, d]);
    let measure = t.node(&[kind, 2]);
    let sum = t.node(&[3, ADD, nbr, measure]);
    let inf = t.constant(INF);
    let fold = t.node(&[11, min, inf, sum]);
    let mux = t.node(&[7, source, zero, fold]);
    let rep = t.node(&[5, 0, start, mux]);
    let distance_to = t.define(1, rep);
    let one = t.constant(1);
    let sense = t.node(&[4, one]);
    let call = t.node(&[12, distance_to, sense]);
    t.main(call)
}

pub fn fresh() -> Vec<i32> {
    let mut network = vec![7; CELLS];
    assert_eq!(second::fresh(&mut network), (0, 0));
    network
}

pub fn block(a: usize) -> usize {
    (a - 1) * 545
}

pub fn variable_cell(a: usize, v: usize) -> usize {
    block(a) + v
}

/// Slot i last heard from b; i = 0 is the distance.
pub fn heard_cell(a: usize, b: usize, i: usize) -> usize {
    block(a) + 17 + 16 * (b - 1) + i
}

pub fn pending_cell(a: usize, b: usize, i: usize) -> usize {
    block(a) + 273 + 16 * (b - 1) + i
}

/// The age of what a last heard from b.
pub fn age_cell(a: usize, b: usize) -> usize {
    block(a) + 529 + (b - 1)
}

/// Writes slot i heard by a from b, and an age of 0 beside it.
pub fn put_heard(network: &mut [i32], a: usize, b: usize, i: usize, number: i32) {
    network[heard_cell(a, b, i)] = number;
    network[age_cell(a, b)] = 0;
}

pub fn fire(a: u8) -> Vec<u8> {
    vec![0x10, 0, 1, a]
}

pub fn deliver(a: u8, b: u8) -> Vec<u8> {
    vec![0x11, 0, 2, a, b]
}

pub fn lose(a: u8, b: u8) -> Vec<u8> {
    vec![0x12, 0, 2, a, b]
}

pub fn link(a: u8, b: u8, distance: i32) -> Vec<u8> {
    let mut event = vec![0x13, 0, 6, a, b];
    event.extend(distance.to_be_bytes());
    event
}

pub fn signal(a: u8, sensor: u8, switch: u8) -> Vec<u8> {
    vec![0x14, 0, 3, a, sensor, switch]
}

/// Runs a list that is not refused as a whole; the answer pairs.
pub fn run(program: &[u8], network: &mut [i32], events: &[Vec<u8>]) -> Vec<(i32, i32)> {
    let mut answers = vec![99; 2 * events.len() + 2];
    assert_eq!(second::run(program, network, &events.concat(), &mut answers), (0, 0));
    assert_eq!(answers.split_off(2 * events.len()), [99, 99], "space beyond the pairs is untouched");
    answers.chunks(2).map(|pair| (pair[0], pair[1])).collect()
}

/// Does events one after the other, each answered 0; of fires the values.
pub fn values(program: &[u8], network: &mut [i32], events: &[Vec<u8>]) -> Vec<i32> {
    let answers = run(program, network, events);
    assert!(answers.iter().all(|(code, _)| *code == 0), "{answers:?}");
    answers.iter().zip(events).filter(|(_, event)| event[0] == 0x10).map(|((_, value), _)| *value).collect()
}

/// The value of a program with no input, at device 1 of a fresh network.
pub fn value(program: &[u8]) -> i32 {
    match run(program, &mut fresh(), &[fire(1)])[..] {
        [(0, value)] => value,
        ref other => panic!("{other:?}"),
    }
}
