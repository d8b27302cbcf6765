//! Seeded cases for engines of document 01 ("01"): the same seed and index always give the same case.
#![deny(warnings)]
#![forbid(unsafe_code)]

pub mod answers;
pub mod broken;
pub mod events;
pub mod every_text;
pub mod grow;
pub mod network;
pub mod random;
pub mod spell;
pub mod systematic;
pub mod table;
pub mod texts;

use broken::Expected;
use grow::Shape;
use random::Random;
use std::collections::BTreeSet;

#[derive(Clone, Copy, Debug, PartialEq, Eq)]
pub enum Call {
    Check,
    Fresh,
    Event,
    Run,
    /// Two runs, of `list` and of `reordered` (demand 3).
    Orders,
}

/// One call with all that is lent to it.
#[derive(Clone, Debug, PartialEq, Eq)]
pub struct Case {
    /// The family, and the case of 01's table that is meant.
    pub label: &'static str,
    pub call: Call,
    pub program: Vec<u8>,
    pub network: Vec<i32>,
    pub list: Vec<u8>,
    pub reordered: Vec<u8>,
    /// Length of the answer space.
    pub space: usize,
    /// What is known of the returned number and place.
    pub expected: Expected,
}

/// An accepted program of any shape.
pub fn program(random: &mut Random) -> Vec<u8> {
    let draft = match random.below(20) {
        0 => {
            let slot = random.between(1, 14) as u8;
            grow::distance_to(random.pick(&table::MEASURES), [slot, slot + 1], random.below(16) as u8)
        }
        1 => {
            let mut draft = grow::accepted(Shape { nodes: 256, ..Shape::any(random) }, random);
            grow::pad(&mut draft, 256);
            draft
        }
        2 | 3 => grow::calculation(random),
        _ => grow::accepted(Shape::any(random), random),
    };
    let plain = random.chance(30);
    table::bytes(&table::write(&draft, plain, random).fields)
}

/// A program whose main costs 1,000,000 or a little less.
fn dear_program(random: &mut Random) -> Vec<u8> {
    let cost = 1_000_000 - random.pick(&[0, 0, 1, 15, 1_000]);
    let draft = grow::costing(cost, random);
    let plain = random.chance(30);
    table::bytes(&table::write(&draft, plain, random).fields)
}

const DONE: Expected = Some((0, Some(0)));

/// The labels that cases get here.
const LABELS: [&str; 16] = [
    "check: accepted",
    "fresh",
    "fresh: 11 wrong length",
    "event",
    "event: space longer by 64",
    "event: space longer by 5,000",
    "event: dear round",
    "run",
    "run: space longer by 64",
    "run: space longer by 5,000",
    "orders (demand 3)",
    "12 no event",
    "12 event after the first",
    "12 byte after the first",
    "13 answer space too short",
    "1-12 several at once",
];

/// Every label that some case has. One that begins with a number, or a first and a last, is refused with that.
pub fn labels() -> BTreeSet<&'static str> {
    broken::labels().chain(network::LABELS).chain(events::LABELS).chain(LABELS).collect()
}

/// The case with this index.
pub fn nth(seed: u64, index: u64) -> Case {
    let random = &mut Random::new(seed, index);
    match random.below(100) {
        0..=7 => {
            let dear = random.chance(4);
            let program = if dear { dear_program(random) } else { program(random) };
            Case { label: "check: accepted", program, expected: DONE, ..empty() }
        }
        8..=33 => check_of(broken::labelled(random)),
        34..=42 => check_of(broken::spoiled(random)),
        43..=44 => fresh_case(random),
        45..=92 => Ground::any(random).case(random),
        _ => orders(random),
    }
}

fn empty() -> Case {
    Case {
        label: "",
        call: Call::Check,
        program: vec![],
        network: vec![],
        list: vec![],
        reordered: vec![],
        space: 0,
        expected: None,
    }
}

fn check_of(broken: broken::Broken) -> Case {
    Case { label: broken.label, program: broken.program, expected: broken.expected, ..empty() }
}

fn fresh_case(random: &mut Random) -> Case {
    let devices = network::devices(random);
    let mut network = network::sound(&devices, random);
    if random.chance(30) {
        network.resize(random.pick(&network::WRONG_LENGTHS), 3);
        let label = "fresh: 11 wrong length";
        return Case { label, call: Call::Fresh, network, expected: Some((11, Some(0))), ..empty() };
    }
    for cell in network.iter_mut() {
        if random.chance(5) {
            *cell = random.word() as i32;
        }
    }
    Case { label: "fresh", call: Call::Fresh, network, expected: DONE, ..empty() }
}

/// What the parts of a case on one network have in common.
struct Ground {
    devices: Vec<u8>,
    /// One event or a run.
    call: Call,
    /// How many events.
    length: usize,
    /// Percent of odd events.
    odd: usize,
}

impl Ground {
    fn any(random: &mut Random) -> Ground {
        let devices = network::devices(random);
        let call = if random.chance(35) { Call::Event } else { Call::Run };
        let length = match call {
            Call::Event => 1,
            _ => random.weighted(&[(10, 0), (20, 1), (100, 12), (100, 30), (30, 80), (10, 200), (1, 3_000)]),
        };
        Ground { devices, call, length, odd: random.pick(&[0, 5, 5, 60]) }
    }

    /// Mostly all goes well, else one or several things are wrong.
    fn case(&self, random: &mut Random) -> Case {
        match random.below(100) {
            // One round that costs a million is enough, and slow in an engine of trees.
            0 if random.chance(10) => Case {
                label: "event: dear round",
                call: Call::Event,
                program: dear_program(random),
                list: events::fire(random.pick(&self.devices)),
                space: 2,
                ..self.fine(random)
            },
            0..=74 => self.fine(random),
            75..=83 => {
                let unsound = network::unsound(&self.devices, random);
                Case { label: unsound.label, network: unsound.cells, expected: unsound.expected, ..self.fine(random) }
            }
            84..=91 if self.call == Call::Event && random.chance(30) => self.not_one(random),
            84..=91 => self.malformed(random),
            92..=94 if self.length > 0 => {
                let full = 2 * self.length;
                let space = if random.chance(50) { full - 1 } else { random.below(full) };
                let label = "13 answer space too short";
                Case { label, space, expected: Some((13, Some(0))), ..self.fine(random) }
            }
            _ => self.several(random),
        }
    }

    fn fine(&self, random: &mut Random) -> Case {
        let spare = random.weighted(&[(60, 0), (20, 1), (20, 2), (20, 7), (3, 64), (2, 5_000)]);
        let label = match (self.call, spare) {
            (Call::Event, 64) => "event: space longer by 64",
            (Call::Event, 5_000) => "event: space longer by 5,000",
            (Call::Event, _) => "event",
            (_, 64) => "run: space longer by 64",
            (_, 5_000) => "run: space longer by 5,000",
            _ => "run",
        };
        Case {
            label,
            call: self.call,
            program: program(random),
            network: network::sound(&self.devices, random),
            list: events::list(self.length, &self.devices, self.odd, random).concat(),
            space: 2 * self.length + spare,
            expected: DONE,
            ..empty()
        }
    }

    /// For the one-event call: a list of good events, but not of one.
    fn not_one(&self, random: &mut Random) -> Case {
        let (label, list, place) = match random.below(3) {
            0 => ("12 no event", vec![], 0),
            1 => ("12 event after the first", events::list(2, &self.devices, self.odd, random).concat(), 1),
            _ => {
                let mut list = events::any(&self.devices, self.odd, random);
                list.push(random.byte());
                ("12 byte after the first", list, 1)
            }
        };
        Case { label, list, space: random.below(6), expected: Some((12, Some(place))), ..self.fine(random) }
    }

    fn malformed(&self, random: &mut Random) -> Case {
        let good = random.weighted(&[(30, 0), (30, 1), (20, 2), (10, 9), (3, 300), (2, 3_000)]);
        // The place of one event is 0 or 1: a long list is run.
        let call = if good > 9 { Call::Run } else { self.call };
        let malformed = events::malformed(good, &self.devices, random);
        let expected = if call == Call::Event { malformed.event } else { malformed.run };
        let space = 2 * good + random.pick(&[0, 0, 0, 1, 2, 7]);
        Case { label: malformed.label, call, list: malformed.list, space, expected, ..self.fine(random) }
    }

    /// Two or more of program, network, list and answer space are bad: the first row counts.
    fn several(&self, random: &mut Random) -> Case {
        let mut bad = vec!["program", "network", "list", "space"];
        random.shuffle(&mut bad);
        bad.truncate(random.between(2, 4));
        let mut case = Case { label: "1-12 several at once", ..self.fine(random) };
        if bad.contains(&"space") {
            // There is an event to be answered.
            if case.list.is_empty() {
                case.list = events::fire(1);
            }
            case.space = 0;
            case.expected = Some((13, Some(0)));
        }
        if bad.contains(&"list") {
            let good = random.between(if case.space == 0 { 1 } else { 0 }, 2);
            let malformed = events::malformed(good, &[1, 2], random);
            case.list = malformed.list;
            case.expected = if case.call == Call::Event { malformed.event } else { malformed.run };
        }
        if bad.contains(&"network") {
            let unsound = network::unsound(&[1, 2], random);
            case.network = unsound.cells;
            case.expected = unsound.expected;
        }
        if bad.contains(&"program") {
            let broken = broken::labelled(random);
            case.program = broken.program;
            case.expected = broken.expected;
        }
        case
    }
}

fn orders(random: &mut Random) -> Case {
    let devices = network::devices(random);
    let length = random.weighted(&[(1, 0), (3, 6), (6, 20), (6, 50)]);
    let odd = random.pick(&[0, 5, 30]);
    let first = events::list(length, &devices, odd, random);
    let second = events::reordered(&first, random);
    Case {
        label: "orders (demand 3)",
        call: Call::Orders,
        program: program(random),
        network: network::sound(&devices, random),
        space: 2 * length + random.below(3),
        list: first.concat(),
        reordered: second.concat(),
        expected: DONE,
    }
}

#[cfg(test)]
mod tests {
    use super::*;

    /// Accepted programs reach every kind and every limit.
    #[test]
    fn programs_reach_the_limits() {
        let mut kinds = BTreeSet::new();
        let mut parents = BTreeSet::new();
        let [mut nodes, mut definitions, mut slots, mut variables, mut parameters] = [0; 5];
        for index in 0..2_000 {
            let program = program(&mut Random::new(9, index));
            let mut bodies: Vec<&[u8]> = vec![];
            let mut counts = vec![];
            for field in table::split(&program) {
                match field[0] {
                    1 => bodies.push(&field[3..]),
                    2 => counts.push(usize::from(field[3])),
                    _ => {}
                }
            }
            let of = |kind: u8| bodies.iter().filter(|body| body[0] == kind).count();
            kinds.extend(bodies.iter().map(|body| body[0]));
            // Which kinds stand right under which: operands follow the items.
            for body in &bodies {
                let (items, _) = table::LAYOUT[usize::from(body[0])];
                parents.extend(body[1 + items..].iter().map(|child| (body[0], bodies[usize::from(*child)][0])));
            }
            nodes = nodes.max(bodies.len());
            definitions = definitions.max(counts.len());
            slots = slots.max(bodies.iter().filter(|body| table::takes_slot(body[0])).count());
            variables = variables.max(of(5));
            parameters = parameters.max(counts.iter().copied().max().unwrap_or(0));
        }
        assert_eq!(kinds, (0..=13).collect());
        assert_eq!([nodes, definitions, slots, variables, parameters], [256, 32, 15, 16, 4]);
        // Every kind that gives a number stands under every kind that takes one, fields under all that take them.
        for parent in [3, 4, 5, 6, 7, 8, 10, 11, 12] {
            for child in [0, 1, 2, 3, 4, 5, 6, 7, 10, 11, 12] {
                assert!(parents.contains(&(parent, child)), "no kind {child} under kind {parent}");
            }
        }
        for parent in [3, 6, 10, 11] {
            for child in [3, 6, 8, 9, 13] {
                assert!(parents.contains(&(parent, child)), "no kind {child} under kind {parent}");
            }
        }
    }

    #[test]
    fn a_case_is_its_seed_and_index() {
        for index in 0..200 {
            assert_eq!(nth(4, index), nth(4, index));
        }
    }
}
