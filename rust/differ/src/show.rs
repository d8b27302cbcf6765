//! Differences in words, with what is needed to see them again.

use crate::Outcome;
use cases::{network, Case};
use std::fmt::Write;

fn hex(bytes: &[u8]) -> String {
    bytes.iter().map(|byte| format!("{byte:02x}")).collect()
}

/// The device that owns a cell, and the cell within its block.
fn place(cell: usize) -> String {
    let (a, within) = (cell / network::BLOCK + 1, cell % network::BLOCK);
    let what = match within {
        0..=15 => format!("variable {within}"),
        16 => "sensors".into(),
        17..=272 => format!("heard from {}, slot {}", (within - 17) / 16 + 1, (within - 17) % 16),
        273..=528 => format!("pending to {}, slot {}", (within - 273) / 16 + 1, (within - 273) % 16),
        _ => format!("age of what was heard from {}", within - 529 + 1),
    };
    format!("cell {cell} (device {a}, {what})")
}

/// How two outcomes of one call differ.
pub fn unlike(names: [String; 2], one: &Outcome, two: &Outcome) -> String {
    let mut text = format!("{} and {} differ", names[0], names[1]);
    if one.returned != two.returned {
        write!(text, "\n  returned: {:?} and {:?}", one.returned, two.returned).unwrap();
    }
    if let Some(cell) = (0..one.network.len()).find(|cell| one.network[*cell] != two.network[*cell]) {
        write!(text, "\n  {}: {} and {}", place(cell), one.network[cell], two.network[cell]).unwrap();
    }
    if let Some(at) = (0..one.answers.len()).find(|at| one.answers[*at] != two.answers[*at]) {
        let pair = at / 2 * 2;
        let end = (pair + 2).min(one.answers.len());
        write!(text, "\n  answer {}: {:?} and {:?}", at / 2, &one.answers[pair..end], &two.answers[pair..end]).unwrap();
    }
    text
}

/// A difference with its whole case.
pub fn difference(what: &str, name: &str, case: &Case) -> String {
    let mut text = format!("{what}\n  {name}: {:?}, \"{}\"\n", case.call, case.label);
    writeln!(text, "  program: {}", hex(&case.program)).unwrap();
    writeln!(text, "  list: {}", hex(&case.list)).unwrap();
    if !case.reordered.is_empty() {
        writeln!(text, "  reordered: {}", hex(&case.reordered)).unwrap();
    }
    writeln!(text, "  answer space: {}", case.space).unwrap();
    write!(text, "  network of {} cells; not as when fresh:", case.network.len()).unwrap();
    let fresh = network::fresh();
    for (cell, number) in case.network.iter().enumerate() {
        if fresh.get(cell) != Some(number) {
            write!(text, " {cell}:{number}").unwrap();
        }
    }
    text
}
