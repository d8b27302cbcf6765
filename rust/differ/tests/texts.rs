//! The comparison of readers finds no difference where there is none, and finds every bug that was put in.

use differ::{catch_text_mutants, compare_every_text, compare_texts, Engine, Reader, Returned, Second, TextReport};
use mutants::Mutant;
use std::collections::BTreeSet;

const MUTANTS: usize = 201;

fn alike(report: &TextReport) {
    if let Some(difference) = &report.difference {
        panic!("{difference}");
    }
}

/// Every label is met, each brings its own refusal and no other; every number that a text can bring is met.
#[test]
fn labels_bring_their_refusal() {
    let report = compare_texts(&[&Second], 201, 20_000);
    alike(&report);
    assert_eq!(report.random_gaps(), [""; 0]);
}

#[test]
fn every_text() {
    let report = compare_every_text(&[&Second]);
    alike(&report);
    assert_eq!(report.systematic_gaps(), [""; 0]);
}

#[test]
fn copy_without_a_bug() {
    alike(&compare_texts(&[&Second, &Mutant(usize::MAX)], 202, 5_000));
}

#[cfg(feature = "proved")]
#[test]
fn proved_reader_against_second_reader() {
    let report = compare_texts(&[&differ::Proved, &Second], 207, 20_000);
    alike(&report);
    assert_eq!(report.random_gaps(), [""; 0]);
    let report = compare_every_text(&[&differ::Proved, &Second]);
    alike(&report);
    assert_eq!(report.systematic_gaps(), [""; 0]);
}

/// Each bug has a name of its own.
#[test]
fn mutants_are_counted() {
    let names: BTreeSet<&str> = mutants::all().chain(mutants::of_texts()).map(Mutant::name).collect();
    assert_eq!(names.len(), mutants::all().count() + MUTANTS);
    assert_eq!(mutants::of_texts().count(), MUTANTS);
}

#[test]
fn every_mutant_is_caught() {
    let missed: Vec<&str> = catch_text_mutants(&Second, 203, 40_000)
        .expect("the second engine does every text")
        .into_iter()
        .filter(|(_, caught)| caught.is_none())
        .map(|(mutant, _)| mutant.name())
        .collect();
    assert_eq!(missed, [""; 0]);
}

/// The second engine with something done after each reading.
struct Spoiled(fn(&[u8], &mut [u8], &mut Returned));

impl Engine for Spoiled {
    fn name(&self) -> String {
        "spoiled".into()
    }
    fn check(&self, program: &[u8]) -> Returned {
        Second.check(program)
    }
    fn fresh(&self, network: &mut [i32]) -> Returned {
        Second.fresh(network)
    }
    fn event(&self, program: &[u8], network: &mut [i32], list: &[u8], answers: &mut [i32]) -> Returned {
        Second.event(program, network, list, answers)
    }
    fn run(&self, program: &[u8], network: &mut [i32], list: &[u8], answers: &mut [i32]) -> Returned {
        Second.run(program, network, list, answers)
    }
}

impl Reader for Spoiled {
    fn read_text(&self, text: &[u8], table: &mut [u8]) -> Returned {
        let mut returned = Second.read_text(text, table);
        (self.0)(text, table, &mut returned);
        returned
    }
}

/// One reader alone is held to what is known of the texts: what it may write, tables, places.
#[test]
fn one_reader_alone_can_fail() {
    let wrong: [(fn(&[u8], &mut [u8], &mut Returned), &str); 9] = [
        (|_, table, _| table.iter_mut().for_each(|byte| *byte = 0), "more was written"),
        (
            |_, table, (number, place)| table.iter_mut().skip(*place).for_each(|byte| *byte ^= u8::from(*number == 0)),
            "more was written",
        ),
        (
            |_, table, returned| table.iter_mut().take(usize::from(returned.0 == 7)).for_each(|byte| *byte = 1),
            "more was written",
        ),
        (
            |_, table, returned| table.iter_mut().take(4 * usize::from(returned.0 == 0)).for_each(|byte| *byte = 77),
            "no program",
        ),
        (|_, _, returned| returned.1 += usize::from(returned.0 == 13), "is no place"),
        (|_, _, returned| returned.0 -= u32::from(returned.0 == 20), "expected (20, 0)"),
        (|_, _, returned| returned.1 -= usize::from(returned.0 == 19 && returned.1 > 0), "that are shared"),
        (
            |text, _, returned| returned.1 -= usize::from(returned.0 == 19 && (1..text.len()).contains(&returned.1)),
            "byte more",
        ),
        (|text, _, returned| returned.1 += usize::from(returned.0 == 3 && text.ends_with(b"\r")), "blanks around"),
    ];
    for (reader, words) in wrong {
        let report = compare_texts(&[&Spoiled(reader)], 204, 20_000);
        let difference = report.difference.unwrap_or_else(|| panic!("it is not seen: {words}"));
        assert!(difference.contains(words), "{difference}");
    }
}

/// A difference names its seed and text, and a shorter text that shows it.
#[test]
fn differences_can_be_seen_again() {
    let mutant = mutants::of_texts().find(|mutant| Mutant::name(*mutant) == "tab is a blank").expect("it is there");
    let difference = compare_texts(&[&Second, &mutant], 205, 20_000).difference.expect("it is caught");
    for word in ["seed 205, text ", "second engine and mutant 'tab is a blank' returned"] {
        assert!(difference.contains(word), "no '{word}' in: {difference}");
    }
    let (_, small) = difference.split_once("shrunk: ").expect("shrunk");
    assert!(small.contains("text: \"\\t\""), "{small}");
}
