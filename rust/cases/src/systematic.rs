//! Cases that leave little to chance: every pair of edge numbers, every domain of few devices and of most, every cell,
//! every age, what nbr-range and nbr-lag may meet, also beside nbr in a rep, short histories of what is heard, every
//! truncation, bit and event byte of some programs and events, and two long runs.

use crate::grow::{self, Shape};
use crate::network::ABSENT;
use crate::random::Random;
use crate::table::{bytes, split, write, Draft, Tree, MEASURES};
use crate::{events, network, Call, Case};

const EDGES: [i32; 17] = [
    -i32::MAX,
    1 - i32::MAX,
    -65_536,
    -46_341,
    -7,
    -2,
    -1,
    0,
    1,
    2,
    7,
    32_768,
    46_341,
    65_536,
    i32::MAX / 2 + 1,
    i32::MAX - 1,
    i32::MAX,
];

/// All devices.
const ALL: [u8; 16] = [1, 2, 3, 4, 5, 6, 7, 8, 9, 10, 11, 12, 13, 14, 15, 16];

fn case(label: &'static str, call: Call, program: &[u8]) -> Case {
    Case {
        label,
        call,
        program: program.to_vec(),
        network: vec![],
        list: vec![],
        reordered: vec![],
        space: 2,
        expected: None,
    }
}

fn plain(main: Tree) -> Vec<u8> {
    written(Draft { definitions: vec![], main, orphans: vec![] })
}

fn written(draft: Draft) -> Vec<u8> {
    bytes(&write(&draft, true, &mut Random::new(0, 0)).fields)
}

/// The labels of all systematic cases.
pub const LABELS: [&str; 13] = [
    "each pair of edge numbers",
    "each domain",
    "each cell",
    "each age",
    "each measure",
    "each operator on fields in a rep",
    "each history",
    "each truncation",
    "each truncation of a full table",
    "each bit",
    "each byte of an event",
    "each truncation of an event",
    "run of 20,000 events",
];

/// All systematic cases. One call each; `see` gets them in turn.
pub fn all(see: &mut dyn FnMut(Case)) {
    arithmetic(see);
    domains(see);
    cells(see);
    ages(see);
    measures(see);
    fields_in_a_rep(see);
    histories(see);
    programs(see);
    full_table(see);
    for measure in MEASURES {
        event_bytes(measure, see);
        see(long_run(measure));
    }
}

/// Each operator on each pair of edge numbers: as numbers, as a field and a number both ways round, as two fields, folded.
fn arithmetic(see: &mut dyn FnMut(Case)) {
    for o in 0..9 {
        for left in EDGES {
            for right in EDGES {
                let c = Tree::constant;
                let field = |slot: u8| Tree::new(8, &[slot], vec![c(left)]);
                let op = |l: Tree, r: Tree| Tree::new(3, &[o], vec![l, r]);
                let fold = |field: Tree| Tree::new(10, &[0], vec![c(0), field]);
                let forms = [
                    op(c(left), c(right)),
                    fold(op(field(1), c(right))),
                    fold(op(c(left), field(2))),
                    fold(op(field(1), field(2))),
                    Tree::new(10, &[o], vec![c(left), field(2)]),
                ];
                // Device 1 hears left in slot 1 and right in slot 2 from device 3, right alone from device 7.
                let mut cells = network::fresh();
                cells[network::heard(1, 3, 1)] = left;
                cells[network::heard(1, 3, 2)] = right;
                cells[network::heard(1, 7, 2)] = right;
                cells[network::age(1, 3)] = 0;
                cells[network::age(1, 7)] = 0;
                // One run over all forms would need one program: each form is a run of its own.
                for form in forms {
                    see(Case {
                        network: cells.clone(),
                        list: events::fire(1),
                        ..case("each pair of edge numbers", Call::Event, &plain(form))
                    });
                }
            }
        }
    }
}

/// The programs that walk a field's devices, each with the number that is heard from device b, one of `bits`.
type Walk = (Vec<u8>, fn(usize, u32) -> i32);

/// Whether the number of device b is the one 0 that is divided by: of three devices the highest, of one the lowest, of two
/// there is none, and likewise of as many more than twelve.
fn divisor_0(b: usize, bits: u32) -> bool {
    match bits.count_ones() % 3 {
        0 => bits >> b == 0,
        1 => bits.trailing_zeros() as usize + 1 == b,
        _ => false,
    }
}

/// Folds by operators, by a definition that weighs each number by its place, and by the lesser; a field divided by.
fn walks() -> [Walk; 6] {
    let (c, parameter) = (Tree::constant, |p: u8| Tree::new(1, &[p], vec![]));
    let op = |o: u8, left: Tree, right: Tree| Tree::new(3, &[o], vec![left, right]);
    let heard = || Tree::new(8, &[1], vec![c(0)]);
    let fold = |o: u8, from: i32, field: Tree| plain(Tree::new(10, &[o], vec![c(from), field]));
    let by = |from: i32, body: Tree| {
        let main = Tree::new(11, &[0], vec![c(from), heard()]);
        written(Draft { definitions: vec![(2, body)], main, orphans: vec![] })
    };
    let digits = op(0, op(2, parameter(0), c(3)), parameter(1));
    let lesser = Tree::new(6, &[], vec![op(4, parameter(0), parameter(1)), parameter(0), parameter(1)]);
    [
        (fold(1, 5, heard()), |b, _| 1 << b),
        (fold(4, 1, heard()), |b, _| b as i32 % 3 - 1),
        (fold(3, i32::MAX - 1, heard()), |b, bits| if divisor_0(b, bits) { 0 } else { 2 }),
        (fold(0, 0, op(3, c(5_000), heard())), |b, bits| if divisor_0(b, bits) { 0 } else { b as i32 }),
        (by(0, digits), |b, _| b as i32 * 7 % 17),
        (by(i32::MAX, lesser), |b, _| b as i32 * 7 % 17 - 8),
    ]
}

/// Each domain of at most three devices, and of at least thirteen, walked by the lowest device that is not in it; and as
/// many sets of variables, which a branch not taken erases.
fn domains(see: &mut dyn FnMut(Case)) {
    let walks = walks();
    let sense = Tree::new(4, &[], vec![Tree::constant(0)]);
    for bits in (0..0xffff_u32).filter(|bits| !(4..=12).contains(&bits.count_ones())) {
        let (a, all) = (bits.trailing_ones() as usize + 1, (1..=16).filter(|b| bits >> (b - 1) & 1 == 1));
        for (program, number) in &walks {
            let mut cells = network::fresh();
            for b in all.clone() {
                cells[network::heard(a, b, 1)] = number(b, bits);
                cells[network::age(a, b)] = 0;
            }
            see(Case {
                network: cells,
                list: events::fire(a as u8),
                expected: crate::DONE,
                ..case("each domain", Call::Event, program)
            });
        }
        let reps = all.map(|v| Tree::new(5, &[v as u8 - 1], vec![Tree::constant(1), Tree::constant(2)]));
        let then = reps.reduce(Tree::sum).unwrap_or(Tree::constant(0));
        let mut cells = network::fresh();
        (0..16).for_each(|v| cells[network::variable(a, v)] = v as i32);
        see(Case {
            network: cells,
            list: events::fire(a as u8),
            expected: crate::DONE,
            ..case("each domain", Call::Event, &plain(Tree::new(6, &[], vec![sense.clone(), then, Tree::constant(3)])))
        });
    }
}

/// Each cell with one or two of the numbers around the limits (which, goes by the cell), on a fresh and on a busy network.
fn cells(see: &mut dyn FnMut(Case)) {
    let program = plain(Tree::constant(1));
    let busy = network::busy(&ALL, &mut Random::new(11, 4));
    for (start, numbers) in [
        (network::fresh(), &[ABSENT, -1, 0, 1, 2, 65_535, 65_536, 1_000_000, 1_000_001][..]),
        (busy, &[ABSENT, -1, 0, 2, 3, 70_000][..]),
    ] {
        for cell in 0..network::CELLS {
            let number = numbers[cell.wrapping_mul(7) % numbers.len()];
            for number in [number, numbers[(cell / 16 + cell) % numbers.len()]] {
                let mut cells = start.clone();
                cells[cell] = number;
                see(Case { network: cells, list: events::signal(1, 0, 1), ..case("each cell", Call::Event, &program) });
            }
        }
    }
}

/// Each age with numbers around its limits, beside no slot and beside one, before a round of its device; then each slot
/// without an age.
fn ages(see: &mut dyn FnMut(Case)) {
    const NUMBERS: [i32; 10] = [ABSENT, -i32::MAX, -1, 0, 1, 2, 3, 4, 1_000_000, i32::MAX];
    let program = plain(Tree::constant(1));
    for pair in 0..256 {
        let (a, b) = (pair / 16 + 1, pair % 16 + 1);
        let mut with = |slot: usize, number: i32, age: i32| {
            let mut cells = network::fresh();
            cells[network::heard(a, b, slot)] = number;
            cells[network::age(a, b)] = age;
            see(Case { network: cells, list: events::fire(a as u8), ..case("each age", Call::Event, &program) });
        };
        for age in NUMBERS {
            with(1, ABSENT, age);
            with(pair % 15 + 1, 7, age);
        }
        for slot in 1..=15 {
            with(slot, 0, ABSENT);
        }
    }
}

/// A fold of a measure's field: its numbers as digits to the base of 16, each 1 more, from the lowest device.
fn digits(kind: u8, slot: u8) -> Vec<u8> {
    let parameter = |p: u8| Tree::new(1, &[p], vec![]);
    let shifted = Tree::new(3, &[2], vec![parameter(0), Tree::constant(16)]);
    let digit = Tree::sum(parameter(1), Tree::constant(1));
    let main = Tree::new(11, &[0], vec![Tree::constant(0), Tree::new(kind, &[slot], vec![])]);
    written(Draft { definitions: vec![(2, Tree::sum(shifted, digit))], main, orphans: vec![] })
}

/// What a device may hold of a sender: age, distance, and the number heard in a slot; the mark where there is none.
fn held() -> Vec<[i32; 3]> {
    let mut all = vec![];
    for age in [ABSENT, 0, 1, 2] {
        for distance in [ABSENT, 0, 7] {
            all.extend([ABSENT, 0, 5].map(|number| [age, distance, number]));
        }
    }
    all
}

/// What nbr-range and nbr-lag make of all that a device may hold of two senders, one of which has the slot's number, over
/// four rounds; then of one sender, each device and sender, in each slot.
fn measures(see: &mut dyn FnMut(Case)) {
    let mut with = |a: usize, slot: u8, senders: &[(usize, [i32; 3])]| {
        let mut cells = network::fresh();
        for (b, [age, distance, number]) in senders {
            cells[network::age(a, *b)] = *age;
            cells[network::heard(a, *b, 0)] = *distance;
            cells[network::heard(a, *b, slot.into())] = *number;
        }
        for kind in MEASURES {
            let list = events::fire(a as u8).repeat(4);
            see(Case {
                network: cells.clone(),
                list,
                space: 8,
                ..case("each measure", Call::Run, &digits(kind, slot))
            });
        }
    };
    for one in held() {
        for two in held() {
            with(2, 3, &[(3, one), (9, two)]);
        }
    }
    let heard_with_0: Vec<[i32; 3]> =
        held().into_iter().filter(|[age, _, number]| *age != ABSENT && *number == 0).collect();
    for pair in 0..256 {
        for slot in 1..=15 {
            let one = heard_with_0[(pair + usize::from(slot)) % heard_with_0.len()];
            with(pair / 16 + 1, slot, &[(pair % 16 + 1, one)]);
        }
    }
}

/// A definition with a rep from its argument; the update sums, from what is stored, what an operator makes of nbr, nbr-range and
/// nbr-lag (slots 1 to 3), in this order. Main calls it.
fn rep_of_fields(o: u8, [first, second, third]: [u8; 3]) -> Vec<u8> {
    let stored = || Tree::new(2, &[0], vec![]);
    let field = |kind: u8| match kind {
        8 => Tree::new(8, &[1], vec![stored()]),
        9 => Tree::new(9, &[2], vec![]),
        _ => Tree::new(13, &[3], vec![]),
    };
    let op = |l: Tree, r: Tree| Tree::new(3, &[o], vec![l, r]);
    let update = Tree::new(10, &[0], vec![stored(), op(op(field(first), field(second)), field(third))]);
    let rep = Tree::new(5, &[0], vec![Tree::new(1, &[0], vec![]), update]);
    let main = Tree::new(12, &[0], vec![Tree::constant(3)]);
    written(Draft { definitions: vec![(1, rep)], main, orphans: vec![] })
}

/// Each operator on nbr, nbr-range and nbr-lag in each order, in a rep in a called definition: four rounds of a device that
/// holds its variable or does not, and has heard 9 in all slots and 3 in some.
fn fields_in_a_rep(see: &mut dyn FnMut(Case)) {
    let put = |cells: &mut [i32], b: usize, [age, distance, number, range, lag]: [i32; 5]| {
        cells[network::age(2, b)] = age;
        for (i, heard) in [distance, number, range, lag].into_iter().enumerate() {
            cells[network::heard(2, b, i)] = heard;
        }
    };
    for number in 0..9 * 6 * 2 * 72 {
        let (o, order, stored, of_3) = (number % 9, number / 9 % 6, number / 54 % 2, number / 108);
        let order = [[8, 9, 13], [8, 13, 9], [9, 8, 13], [9, 13, 8], [13, 8, 9], [13, 9, 8]][order];
        let [range, lag] = [of_3 % 2, of_3 / 2 % 2].map(|heard| if heard == 1 { 0 } else { ABSENT });
        let (distance, heard) = ([ABSENT, 7][of_3 / 4 % 2], [ABSENT, 0, -5][of_3 / 8 % 3]);
        let mut cells = network::fresh();
        put(&mut cells, 9, [1, 4, 6, 0, 0]);
        put(&mut cells, 3, [(of_3 / 24) as i32, distance, heard, range, lag]);
        cells[network::variable(2, 0)] = [ABSENT, 8][stored];
        see(Case {
            network: cells,
            list: events::fire(2).repeat(4),
            space: 8,
            ..case("each operator on fields in a rep", Call::Run, &rep_of_fields(o as u8, order))
        });
    }
}

/// A sum of what is heard in slot 1, and 100 and the age for each device heard with 0 in slot 2; nothing is read or sent
/// where sensor 1 is lit, and where sensor 0 is it faults.
fn listens() -> Vec<u8> {
    let sense = |sensor: i32| Tree::new(4, &[], vec![Tree::constant(sensor)]);
    let total = |field: Tree| Tree::new(10, &[0], vec![Tree::constant(0), field]);
    let heard = total(Tree::new(8, &[1], vec![Tree::constant(5)]));
    let lags = total(Tree::sum(Tree::constant(100), Tree::new(13, &[2], vec![])));
    let unless = Tree::new(6, &[], vec![sense(1), Tree::constant(0), Tree::sum(heard, lags)]);
    let rest = Tree::new(3, &[1], vec![Tree::constant(1), sense(0)]);
    plain(Tree::sum(unless, Tree::new(3, &[3], vec![Tree::constant(1), rest])))
}

/// What can happen to what device 2 hears, each as a list of its own.
fn happenings() -> [Vec<u8>; 6] {
    use events::{deliver, fire, lose, signal};
    [
        vec![fire(1), deliver(1, 2)],
        vec![fire(3), deliver(3, 2)],
        // An empty message.
        vec![signal(1, 1, 1), fire(1), signal(1, 1, 0), deliver(1, 2)],
        vec![fire(1), lose(1, 2)],
        vec![fire(2)],
        // A faulted round.
        vec![signal(2, 0, 1), fire(2), signal(2, 0, 0)],
    ]
    .map(|events| events.concat())
}

/// Each five happenings after each other on a network where nothing was heard, and each two where device 2 has heard 1
/// and 3, with or without slots, at each age.
fn histories(see: &mut dyn FnMut(Case)) {
    let (program, happenings) = (listens(), happenings());
    let mut run = |cells: &[i32], which: &[usize]| {
        let list: Vec<u8> = which.iter().flat_map(|one| happenings[*one].clone()).collect();
        let space = 2 * split(&list).len();
        see(Case { network: cells.to_vec(), list, space, ..case("each history", Call::Run, &program) });
    };
    let mut linked = network::fresh();
    for (a, b) in [(1, 2), (3, 2), (2, 1)] {
        linked[network::heard(a, b, 0)] = 10;
    }
    for number in 0..6_usize.pow(5) {
        run(&linked, &[0, 1, 2, 3, 4].map(|at| number / 6_usize.pow(at) % 6));
    }
    // By sender a number and an age, the mark where there is none.
    let states = [(ABSENT, ABSENT), (7, 0), (7, 1), (7, 2), (ABSENT, 0), (ABSENT, 1), (ABSENT, 2)];
    for number in 0..7 * 7 * 6 * 6 {
        let mut cells = linked.clone();
        for (b, state) in [(1, number % 7), (3, number / 7 % 7)] {
            (cells[network::heard(2, b, 1)], cells[network::age(2, b)]) = states[state];
            // Whoever sends in slot 1 sends 0 in slot 2.
            cells[network::heard(2, b, 2)] = if states[state].0 == ABSENT { ABSENT } else { 0 };
        }
        run(&cells, &[number / 49 % 6, number / 294]);
    }
}

/// Each truncation and each flipped bit of some programs.
fn programs(see: &mut dyn FnMut(Case)) {
    let mut random = Random::new(21, 21);
    let mut drafts: Vec<Draft> = MEASURES.map(|measure| grow::distance_to(measure, [1, 2], 0)).into();
    drafts.push(grow::calculation(&mut random));
    for nodes in [3, 9, 14, 20, 27, 35] {
        let shape = Shape { nodes, definitions: nodes / 9, cost: 999, spare: 0, deep: 10, measures: &MEASURES };
        drafts.push(grow::accepted(shape, &mut random));
    }
    for draft in drafts {
        let program = bytes(&write(&draft, false, &mut random).fields);
        for length in 0..program.len() {
            see(case("each truncation", Call::Check, &program[..length]));
        }
        for bit in 0..8 * program.len() {
            let mut flipped = program.clone();
            flipped[bit / 8] ^= 1 << (bit % 8);
            see(case("each bit", Call::Check, &flipped));
        }
    }
}

/// Each truncation of a program that fills its table.
fn full_table(see: &mut dyn FnMut(Case)) {
    let mut random = Random::new(22, 22);
    let shape = Shape { nodes: 256, definitions: 32, cost: 4_000, spare: 0, deep: 20, measures: &MEASURES };
    let mut draft = grow::accepted(shape, &mut random);
    grow::pad(&mut draft, 256);
    assert_eq!((draft.size(), draft.definitions.len()), (256, 32));
    let program = bytes(&write(&draft, false, &mut random).fields);
    for length in 0..=program.len() {
        see(case("each truncation of a full table", Call::Check, &program[..length]));
    }
}

/// A run of 20,000 events of all devices, by each measure.
pub fn long_runs() -> [Case; 2] {
    MEASURES.map(long_run)
}

fn long_run(measure: u8) -> Case {
    let mut random = Random::new(23, measure.into());
    let program = bytes(&write(&grow::distance_to(measure, [1, 2], 0), true, &mut random).fields);
    Case {
        network: network::busy(&ALL, &mut random),
        list: events::list(20_000, &ALL, 5, &mut random).concat(),
        space: 40_000,
        expected: crate::DONE,
        ..case("run of 20,000 events", Call::Run, &program)
    }
}

/// Each byte of each event over all its values, on a network where the event is possible, with a program of this measure.
fn event_bytes(measure: u8, see: &mut dyn FnMut(Case)) {
    let program = written(grow::distance_to(measure, [1, 2], 0));
    let mut cells = network::fresh();
    for (a, b) in [(1, 2), (2, 1), (1, 16), (16, 1)] {
        cells[network::heard(a, b, 0)] = 5;
        cells[network::pending(a, b, 0)] = 1;
        cells[network::pending(a, b, 1)] = 8;
    }
    let samples = [
        events::fire(1),
        events::deliver(1, 2),
        events::lose(16, 1),
        events::link(1, 2, 1_000_000),
        events::signal(2, 1, 1),
    ];
    for event in samples {
        for at in 0..event.len() {
            for byte in 0..=255 {
                let mut list = event.clone();
                list[at] = byte;
                for call in [Call::Event, Call::Run] {
                    see(Case {
                        network: cells.clone(),
                        list: list.clone(),
                        ..case("each byte of an event", call, &program)
                    });
                }
            }
        }
        for length in 0..event.len() {
            for call in [Call::Event, Call::Run] {
                let list = event[..length].to_vec();
                see(Case { network: cells.clone(), list, ..case("each truncation of an event", call, &program) });
            }
        }
    }
}
