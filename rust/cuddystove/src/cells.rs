//! The index of a cell in a network, for instance `network[cells::variable(2, 0)?]`; none where there is no such
//! device, variable or slot. Devices `a` and `b` are 1 to 16.
//!
//! Items are `i64`, here and in [`events`](crate::events), as in C: every number that a host may have, a negative one
//! too, comes as it is and is refused where it is out of range. To make a `usize` or a `u8` of it the host would have
//! to bring it into range first, and a device 256 could become 0.
//!
//! A host reads cells as it likes, and writes none but by [`take`](crate::messages::take) and
//! [`put`](crate::messages::put). (A test that writes heard slots itself writes an age beside them, else 11
//! names the age's cell.)
//!
//! What is heard fades: a delivery sets the hearer's [`age`] for the sender to 0, each round that the hearer completes
//! adds 1, and what three rounds have read is gone, but for the distance (`docs/MANUAL.md`, 6).

use crate::{BLOCK, DEVICES, FIRST_AGE, FIRST_HEARD, FIRST_PENDING, FIRST_SENSORS, ROW, VARIABLES};

/// How far the number is above `least`, where it is one of the `count` numbers from there on.
fn above(number: i64, least: i64, count: usize) -> Option<usize> {
    usize::try_from(number.checked_sub(least)?).ok().filter(|above| *above < count)
}

/// The first cell of `a`'s block.
#[must_use]
pub fn block(a: i64) -> Option<usize> {
    Some(above(a, 1, DEVICES)? * BLOCK)
}

/// Variable `v`, 0 to 15, of `a`: the mark or a number.
#[must_use]
pub fn variable(a: i64, v: i64) -> Option<usize> {
    Some(block(a)? + above(v, 0, VARIABLES)?)
}

/// The lit sensors of `a`: bit s for sensor s, 0 to 65,535.
#[must_use]
pub fn sensors(a: i64) -> Option<usize> {
    Some(block(a)? + FIRST_SENSORS)
}

/// The distance of the link from `a` to `b`, 0 to 1,000,000, the mark where there is none.
#[must_use]
pub fn distance(a: i64, b: i64) -> Option<usize> {
    row(a, FIRST_HEARD, b)
}

/// Slot `i`, 1 to 15, that `a` last heard from `b`: a number; the mark where it was not in the message, and where the
/// message has faded.
#[must_use]
pub fn heard(a: i64, b: i64, i: i64) -> Option<usize> {
    Some(row(a, FIRST_HEARD, b)? + slot(i)?)
}

/// The age of what `a` last heard from `b`: how many rounds `a` has completed since, 0 to 2; the mark where nothing was
/// heard, where it has faded, and for `a` itself. It is present where a slot heard from `b` is; of an empty message it
/// is present without one. Programs read it by nbr-lag.
#[must_use]
pub fn age(a: i64, b: i64) -> Option<usize> {
    Some(block(a)? + FIRST_AGE + above(b, 1, DEVICES)?)
}

/// 1 if a message is pending from `a` to `b`, else 0.
#[must_use]
pub fn is_pending(a: i64, b: i64) -> Option<usize> {
    row(a, FIRST_PENDING, b)
}

/// Slot `i`, 1 to 15, of the message pending from `a` to `b`: the mark where it isn't in the message, and where no
/// message is pending.
#[must_use]
pub fn pending(a: i64, b: i64, i: i64) -> Option<usize> {
    Some(row(a, FIRST_PENDING, b)? + slot(i)?)
}

/// The first cell of `a`'s row for `b`; the rows begin at `first` of a block.
fn row(a: i64, first: usize, b: i64) -> Option<usize> {
    Some(block(a)? + first + above(b, 1, DEVICES)? * ROW)
}

/// Where in a row slot `i` stands.
fn slot(i: i64) -> Option<usize> {
    Some(1 + above(i, 1, ROW - 1)?)
}
