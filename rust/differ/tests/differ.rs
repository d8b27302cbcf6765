//! The comparison finds no difference where there is none, and finds every bug that was put in.

use cases::table::{split, LAYOUT};
use cases::{Call, Case};
use differ::{catch_mutants, compare, compare_all, Both, Engine, Report, Returned, Second};
use mutants::Mutant;
use std::collections::BTreeSet;
use std::process::Command;

const MUTANTS: usize = 360;

fn alike(report: &Report) {
    if let Some(difference) = &report.difference {
        panic!("{difference}");
    }
}

#[test]
fn second_engine_alone() {
    alike(&compare_all(&[&Second], 101, 20_000));
}

#[test]
fn copy_without_a_bug() {
    alike(&compare(&Second, &Mutant(usize::MAX), 102, 3_000));
}

#[cfg(feature = "proved")]
#[test]
fn proved_engine_against_second_engine() {
    let report = compare(&differ::Proved, &Second, 107, 20_000);
    alike(&report);
    assert!(report.in_one_call > 5_000, "only {} times two runs in one call", report.in_one_call);
}

/// Every label is met, each brings its own refusal and no other; every refusal and answer is met.
#[test]
fn labels_bring_their_refusal() {
    let report = compare_all(&[&Second], 103, 20_000);
    alike(&report);
    assert_eq!(report.gaps(), [""; 0]);
}

/// (1), as a program that is always accepted.
const ONE: [u8; 12] = [1, 0, 5, 0, 0, 0, 0, 1, 3, 0, 1, 0];

/// How many of a case's program, network, list and answer space are bad.
fn faults(case: &Case) -> usize {
    let mut space = vec![0; 8_000];
    let program = Second.check(&case.program);
    let network = Second.run(&ONE, &mut case.network.clone(), &[], &mut []);
    let (list, events) = match Second.run(&ONE, &mut cases::network::fresh(), &case.list, &mut space) {
        (0, _) => (case.call == Call::Event && split(&case.list).len() != 1, split(&case.list).len()),
        (_, place) => (true, place),
    };
    [program.0 != 0, network.0 != 0, list, case.space < 2 * events].into_iter().filter(|bad| *bad).count()
}

/// The kinds that a label of a slot taken twice names: the one that takes it, the one that has it.
fn kinds_of_slot(label: &str) -> Option<[u8; 2]> {
    let (taker, owner) = label.strip_prefix("5 slot of ")?.split_once(" taken by ")?;
    let kind = |name: &str| match name {
        "nbr" => 8,
        "nbr-range" => 9,
        "nbr-lag" => 13,
        _ => panic!("{label}"),
    };
    Some([kind(taker), kind(owner)])
}

/// Whether the field at the case's place is a node of the first kind, and one before it of the second, with its slot.
fn takes_a_slot_twice(case: &Case, [taker, owner]: [u8; 2]) -> bool {
    let fields = split(&case.program);
    let place = case.expected.and_then(|(_, place)| place).expect("it is known");
    let node = |field: &[u8], kind: u8, slot: u8| field[0] == 1 && field[3..5] == [kind, slot];
    let slot = fields[place][4];
    node(fields[place], taker, slot) && fields[..place].iter().any(|field| field.len() > 4 && node(field, owner, slot))
}

/// The kind of node that a label of an nbr-lag as operand names, and which operand.
fn operand_of_lag(label: &str) -> Option<(u8, usize)> {
    Some(match label.strip_suffix(": nbr-lag")? {
        "7 sense of a field" => (4, 0),
        "7 rep with a field as initial part" => (5, 0),
        "7 rep with a field as update" => (5, 1),
        "7 if with a field as condition" => (6, 0),
        "7 if with a field and a number" => (6, 1),
        "7 if with a number and a field" => (6, 2),
        "7 mux with a field as condition" => (7, 0),
        "7 mux with a field as then" | "7 mux with two fields" => (7, 1),
        "7 mux with a field as else" => (7, 2),
        "7 nbr of a field" => (8, 0),
        "7 fold by operator from a field" => (10, 0),
        "7 fold by definition from a field" => (11, 0),
        _ => return None,
    })
}

/// Whether a case that is labelled so has its nbr-lag: as the field at its place, as the operand named of the offending
/// node, as that node or an argument of it, or, where the label says no more, anywhere.
fn has_its_lag(case: &Case) -> bool {
    let fields = split(&case.program);
    let nodes: Vec<&[u8]> = fields.iter().filter(|field| field[0] == 1).map(|field| &field[3..]).collect();
    match case.expected {
        Some((1..=5, Some(place))) => fields[place][0] == 1 && fields[place][3] == 13,
        Some((7, Some(place))) => {
            let of = nodes[place][0];
            let operands = &nodes[place][1 + LAYOUT[usize::from(of)].0..];
            let is_lag = |operand: &u8| nodes[usize::from(*operand)][0] == 13;
            match operand_of_lag(case.label) {
                Some((kind, at)) => of == kind && is_lag(&operands[at]),
                None => of == 13 || of == 12 && operands.iter().any(is_lag),
            }
        }
        _ => nodes.iter().any(|node| node[0] == 13),
    }
}

/// Labels hold what they say where the refusal alone doesn't show it.
#[test]
fn labels_hold_what_they_say() {
    let mut slots = BTreeSet::new();
    for case in (0..12_000).map(|index| cases::nth(106, index)) {
        if let Some(kinds) = kinds_of_slot(case.label) {
            slots.insert(kinds);
            assert!(takes_a_slot_twice(&case, kinds), "{case:?}");
            continue;
        }
        match case.label {
            "1-12 several at once" => assert!(faults(&case) > 1, "{case:?}"),
            "6 main in the middle" => {
                let fields = split(&case.program);
                assert!(fields[1..fields.len() - 1].iter().any(|field| field[0] == 3), "{:02x?}", case.program);
            }
            label if label.contains("nbr-lag") => assert!(has_its_lag(&case), "{case:?}"),
            _ => {}
        }
    }
    assert_eq!(slots.len(), 9, "{slots:?}");
}

/// Too few cases are refused unless that is meant.
#[test]
fn the_program_wants_enough_cases() {
    for (options, what) in [
        (&["--cases", "49999"][..], "need --few"),
        (&["--cases", "many"], "needs a number"),
        (&["--case", "60000"], "unknown option"),
    ] {
        let output = Command::new(env!("CARGO_BIN_EXE_differ")).args(options).output().expect("it runs");
        assert_eq!(output.status.code(), Some(2), "{options:?}");
        assert!(String::from_utf8_lossy(&output.stderr).contains(what), "{output:?}");
    }
}

/// A mutant that nothing tells from the second engine is missed; an engine that panics catches none.
#[test]
fn mutants_can_be_missed() {
    let few = catch_mutants(&Second, 104, 10).expect("the second engine does every case");
    assert!(few.iter().any(|(_, caught)| caught.is_none()));
    assert!(few.iter().any(|(_, caught)| caught.is_some()));
    let panics = spoiled(|_, _, _| panic!("as it should"));
    let what = catch_mutants(&panics, 104, 1_000).expect_err("it panics");
    assert!(what.contains("spoiled: it panicked"), "{what}");
    let report = compare_all(&[&panics, &Second], 104, 1_000);
    assert!(report.difference.expect("it panics").contains("spoiled: it panicked"));
}

/// Each bug has a name of its own; README and the gate's log count them.
#[test]
fn mutants_are_counted() {
    let names: BTreeSet<&str> = mutants::all().map(Mutant::name).collect();
    assert_eq!((names.len(), mutants::all().count()), (MUTANTS, MUTANTS));
}

/// The second engine with something done to its answers and network after each run, or with a call for two runs that ends
/// with something else than two runs.
struct Spoiled {
    after: fn(&[u8], &mut [i32], &mut [i32]),
    twice: Option<Twice>,
}

type Twice = fn(&mut [Returned; 2], [&mut [i32]; 2], [&mut [i32]; 2]);

fn spoiled(after: fn(&[u8], &mut [i32], &mut [i32])) -> Spoiled {
    Spoiled { after, twice: None }
}

fn twofold(twice: Twice) -> Spoiled {
    Spoiled { after: |_, _, _| {}, twice: Some(twice) }
}

impl Engine for Spoiled {
    fn name(&self) -> String {
        "spoiled".into()
    }
    fn check(&self, program: &[u8]) -> Returned {
        Second.check(program)
    }
    fn fresh(&self, network: &mut [i32]) -> Returned {
        Second.fresh(network)
    }
    fn event(&self, program: &[u8], network: &mut [i32], list: &[u8], answers: &mut [i32]) -> Returned {
        Second.event(program, network, list, answers)
    }
    fn run(&self, program: &[u8], network: &mut [i32], list: &[u8], answers: &mut [i32]) -> Returned {
        let returned = Second.run(program, network, list, answers);
        if returned == (0, 0) && list.len() > 8 {
            (self.after)(list, network, answers);
        }
        returned
    }
    fn both(&self) -> Option<&dyn Both> {
        self.twice.as_ref().map(|_| self as &dyn Both)
    }
}

impl Both for Spoiled {
    fn run_both(
        &self,
        program: &[u8],
        [network1, network2]: [&mut [i32]; 2],
        lists: [&[u8]; 2],
        [answers1, answers2]: [&mut [i32]; 2],
    ) -> [Returned; 2] {
        let first = Second.run(program, network1, lists[0], answers1);
        let second = Second.run(program, network2, lists[1], answers2);
        let mut returned = [first, second];
        if let Some(twice) = self.twice {
            twice(&mut returned, [network1, network2], [answers1, answers2]);
        }
        returned
    }
}

/// An engine that depends on the order of events agrees with itself, but not with demand 3.
#[test]
fn demand_3_can_fail() {
    let by_place = spoiled(|_, _, answers| answers[1] += 1);
    let last_event =
        spoiled(|list, network, _| network[cases::network::variable(16, 0)] = i32::from(list[list.len() - 1]));
    for engine in [by_place, last_event] {
        let report = compare_all(&[&engine], 105, 2_000);
        let difference = report.difference.expect("it depends on the order");
        assert!(difference.contains("demand 3"), "{difference}");
    }
}

/// Two runs in one call are held to the same runs alone: what they return, both networks, both answer spaces.
#[test]
fn two_runs_in_one_call_can_fail() {
    let right = compare_all(&[&twofold(|_, _, _| {})], 109, 2_000);
    alike(&right);
    assert!(right.in_one_call > 500, "only {}", right.in_one_call);
    let wrong = [
        twofold(|returned, _, _| returned[0].1 += 1),
        twofold(|returned, _, _| returned[1] = returned[0]),
        twofold(|returned, _, _| returned[0] = returned[1]),
        twofold(|returned, [_, network2], _| {
            if returned[1].0 == 0 {
                network2[0] = 7;
            }
        }),
        twofold(|_, [network1, _], _| {
            if let Some(cell) = network1.last_mut() {
                *cell = 7;
            }
        }),
        twofold(|_, _, [answers1, answers2]| {
            if answers1.len() > 1 {
                answers1.swap_with_slice(answers2);
                answers2[1] ^= 1;
            }
        }),
    ];
    for (at, engine) in wrong.iter().enumerate() {
        let report = compare_all(&[engine], 109, 20_000);
        let difference = report.difference.unwrap_or_else(|| panic!("wrong in way {at}"));
        assert!(difference.contains("two runs in one call"), "{difference}");
    }
}

/// A difference names its seed and case, and a smaller case that shows it.
#[test]
fn differences_can_be_seen_again() {
    let mutant = mutants::all().find(|mutant| Mutant::name(*mutant) == "lose keeps the message").expect("it is there");
    let difference = compare(&Second, &mutant, 108, 20_000).difference.expect("it is caught");
    for word in [
        "seed 108, case ",
        "program: 01",
        "list: ",
        "answer space: ",
        "network of 8720 cells",
        "second engine and mutant",
    ] {
        assert!(difference.contains(word), "no '{word}' in: {difference}");
    }
    let (_, small) = difference.split_once("shrunk: ").expect("shrunk");
    let (_, rest) = small.split_once("list: ").expect("with its list");
    let list = rest.lines().next().expect("and its events");
    assert!(list.contains("120002"), "the lost message: {small}");
    assert!(list.len() < 60, "{small}");
}

/// A fresh network with one cell changed is sound exactly by the rule of that cell.
#[test]
fn every_cell_by_its_rule() {
    for cell in 0..cases::network::CELLS {
        let (device, within) = (cell / 545, cell % 545);
        let own = |start: usize| (within - start) / 16 == device;
        for (at, number) in [i32::MIN, -1, 0, 1, 2, 3, 65_535, 65_536, 1_000_000, 1_000_001].into_iter().enumerate() {
            let absent = number == i32::MIN;
            let sound = match within {
                0..=15 => true,
                16 => (0..65_536).contains(&number),
                17..=272 if own(17) || (within - 17) % 16 != 0 => absent,
                17..=272 => absent || (0..=1_000_000).contains(&number),
                273..=528 if (within - 273) % 16 != 0 => absent,
                273..=528 => number == 0 || number == 1 && !own(273),
                _ => absent || (0..=2).contains(&number) && within - 529 != device,
            };
            // Of ages every number, of other cells two, in each device others.
            if within < 529 && at % 5 != (device + within) % 5 {
                continue;
            }
            let mut network = cases::network::fresh();
            network[cell] = number;
            // A slot heard from another asks for its age.
            let heard = (17..=272).contains(&within) && !own(17) && (within - 17) % 16 != 0;
            let offends = if heard { device * 545 + 529 + (within - 17) / 16 } else { cell };
            let expected = if sound { (0, 0) } else { (11, offends) };
            assert_eq!(second::run(&ONE, &mut network, &[], &mut []), expected, "cell {cell} = {number}");
        }
    }
}
