//! Each cell's index by 01's formula, for every device, variable and slot; and none outside.

use std::collections::BTreeSet;

use cuddystove::{cells, fresh, ABSENT, CELLS};

const OUTSIDE: [i64; 10] = [i64::MIN, -(1 << 32) + 1, -1, 0, 17, 18, 256, 257, (1 << 32) + 1, i64::MAX];

/// 01 and L1: block a begins at (a - 1) 545; in it the variables from 0, the sensors at 16, the row heard from b at
/// 17 + 16 (b - 1), the row pending to b at 273 + 16 (b - 1), the age for b at 529 + (b - 1).
#[test]
fn every_cell_once() {
    let mut seen = BTreeSet::new();
    let mut at = |cell: Option<usize>, expected: i64| {
        assert_eq!(cell, usize::try_from(expected).ok());
        assert!(seen.insert(expected), "{expected} twice");
    };
    for a in 1..=16 {
        let block = (a - 1) * 545;
        assert_eq!(cells::block(a), usize::try_from(block).ok());
        for v in 0..=15 {
            at(cells::variable(a, v), block + v);
        }
        at(cells::sensors(a), block + 16);
        for b in 1..=16 {
            let (heard, pending) = (block + 17 + 16 * (b - 1), block + 273 + 16 * (b - 1));
            at(cells::distance(a, b), heard);
            at(cells::is_pending(a, b), pending);
            at(cells::age(a, b), block + 529 + (b - 1));
            for i in 1..=15 {
                at(cells::heard(a, b, i), heard + i);
                at(cells::pending(a, b, i), pending + i);
            }
        }
    }
    assert_eq!(seen.len(), CELLS);
    assert_eq!(seen.last(), Some(&(CELLS as i64 - 1)));
}

#[test]
fn none_outside() {
    for wrong in OUTSIDE {
        assert_eq!(cells::block(wrong), None, "{wrong}");
        assert_eq!(cells::variable(wrong, 0), None, "{wrong}");
        assert_eq!(cells::sensors(wrong), None, "{wrong}");
        for (a, b) in [(wrong, 1), (1, wrong), (wrong, wrong)] {
            assert_eq!(cells::distance(a, b), None, "{a} {b}");
            assert_eq!(cells::heard(a, b, 1), None, "{a} {b}");
            assert_eq!(cells::is_pending(a, b), None, "{a} {b}");
            assert_eq!(cells::age(a, b), None, "{a} {b}");
            assert_eq!(cells::pending(a, b, 1), None, "{a} {b}");
        }
    }
    for wrong in OUTSIDE.into_iter().chain([16]) {
        assert_eq!(cells::heard(1, 2, wrong), None, "{wrong}");
        assert_eq!(cells::pending(1, 2, wrong), None, "{wrong}");
    }
    for wrong in OUTSIDE.into_iter().filter(|wrong| *wrong != 0).chain([16]) {
        assert_eq!(cells::variable(1, wrong), None, "{wrong}");
    }
}

/// The engine agrees on which cells are sensors and pending marks; ages are absent.
#[test]
fn fresh_has_zeros_there() {
    let mut network = vec![7; CELLS];
    assert_eq!(fresh(&mut network), Ok(()));
    let mut zeros: BTreeSet<usize> = (1..=16).filter_map(cells::sensors).collect();
    zeros.extend((1..=16).flat_map(|a| (1..=16).filter_map(move |b| cells::is_pending(a, b))));
    assert_eq!(zeros.len(), 16 + 256);
    for (cell, number) in network.iter().enumerate() {
        assert_eq!(*number, if zeros.contains(&cell) { 0 } else { ABSENT }, "cell {cell}");
    }
}
