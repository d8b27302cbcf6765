//! The proved Proto round engine, called safely from Rust.
//!
//! The engine is the static library `libcuddystove.a`; `docs/MANUAL.md` says what it does, `include/cuddystove.h` has
//! the cells of a network and the bytes of programs and events. Slices go in; a call that is refused gives a
//! [`Refusal`] with its number and place, a name, and a sentence for people, and has then changed no buffer. No call has a
//! condition on what its slices hold, none panics, and none uses the heap. What a call may write is lent as `&mut`, so
//! nothing else can overlap it. The crate needs `core` only.
//!
//! For hosts besides, tested and not proved: [`events`] makes lists of events, [`cells`] gives the index of a cell,
//! [`messages`] takes a message out of one network and puts it into another.
//!
//! ```
//! use cuddystove::events::List;
//! use cuddystove::{answers, cells, fresh, read_text, run, ANSWER, CELLS};
//!
//! // A counter; a table as `./compile` writes it would do too, after `check`.
//! let mut table = [0; 4_096];
//! let length = read_text(b"(rep x 0 (+ x 1))", &mut table)?;
//! let program = &table[..length];
//! let mut network = vec![0; CELLS];
//! fresh(&mut network)?;
//! let (mut bytes, mut space) = ([0; 8], [0; 2 * ANSWER]);
//! let mut list = List::new(&mut bytes);
//! list.fire(1)?; // device 1 fires twice
//! list.fire(1)?;
//! run(program, &mut network, list.as_bytes(), &mut space)?;
//! let values: Vec<_> = answers(&space).flatten().map(|answer| answer.value()).collect();
//! assert_eq!(values, [Some(0), Some(1)]);
//! assert_eq!(cells::variable(1, 0).map(|cell| network[cell]), Some(1));
//! # Ok::<(), Box<dyn std::error::Error>>(())
//! ```
//!
//! # Stack
//!
//! A call needs 256 KiB of free stack, [`check`] and [`read_text`] 128 KiB: measured on the deepest programs, and on
//! texts of 1 MB, by `tests/host`, not proved. It is the one thing that a host owes beyond safe Rust: with less, the
//! call may write past the end of the stack. Main threads and `std::thread`'s have some MiB; a thread made with a small
//! stack of its own needs this much and what else it uses.
#![no_std]
#![deny(warnings, missing_docs, unsafe_code, unsafe_op_in_unsafe_fn)]

pub mod cells;
pub mod events;
pub mod messages;
/// The calls with the number and place as they are; each needs as much stack as the call it is named after.
#[allow(unsafe_code)]
pub mod plain;

mod answer;
#[cfg(doctest)]
mod grows;
mod numbers;
mod refusal;
mod words;

pub use answer::{answers, Answer};
pub use numbers::*;
pub use refusal::Refusal;

fn result((number, place): (u32, usize)) -> Result<(), Refusal> {
    match number {
        0 => Ok(()),
        _ => Err(Refusal::new(number, place)),
    }
}

/// Checks a program; refused with 1 to 10. Needs 128 KiB of free stack.
pub fn check(program: &[u8]) -> Result<(), Refusal> {
    result(plain::check(program))
}

/// Reads a program's text; its table goes to the start of `table`, whose rest stays, and its length is returned. It has
/// passed the check. 4,096 bytes are room for every table.
///
/// Refused with 19 (outside the notation; the place is the length of the longest beginning that the text shares with
/// one of the notation), 20 (a bad name), 1 to 3, 7, 9 or 10 (the table, as by [`check`]) or 13 (`table` is too short),
/// in this order; nothing is then written. Needs 128 KiB of free stack.
///
/// ```
/// let mut table = [0; 4_096];
/// let length = cuddystove::read_text(b"(rep x 0 (+ x 1))", &mut table)?;
/// assert_eq!(length, 39);
/// assert_eq!(cuddystove::check(&table[..length]), Ok(()));
/// let refusal = cuddystove::read_text(b"(rep x 0 (+ x))", &mut table).expect_err("an operand is missing");
/// assert_eq!((refusal.number, refusal.place), (19, 13));
/// # Ok::<(), cuddystove::Refusal>(())
/// ```
pub fn read_text(text: &[u8], table: &mut [u8]) -> Result<usize, Refusal> {
    match plain::read_text(text, table) {
        (0, length) => Ok(length),
        (number, place) => Err(Refusal::new(number, place)),
    }
}

/// Makes a network fresh; refused with 11 where it is not [`CELLS`] long. Needs 256 KiB of free stack.
pub fn fresh(network: &mut [i32]) -> Result<(), Refusal> {
    result(plain::fresh(network))
}

/// Does the one event of `list`; its answer is the first pair of `space`. Refused with 1 to 13. Needs 256 KiB of free
/// stack.
pub fn event(program: &[u8], network: &mut [i32], list: &[u8], space: &mut [i32]) -> Result<(), Refusal> {
    result(plain::event(program, network, list, space))
}

/// Does the events of `list` from first to last; each leaves a pair in `space`. Refused with 1 to 13. Needs 256 KiB of
/// free stack.
pub fn run(program: &[u8], network: &mut [i32], list: &[u8], space: &mut [i32]) -> Result<(), Refusal> {
    result(plain::run(program, network, list, space))
}

/// Runs two lists, each on a network and an answer space of its own; each run is refused by itself.
///
/// If the networks were equal and the lists are orders of the same events in which clashing events keep their order,
/// and neither run is refused, then the networks end equal and the k-th copy of each event has the same answer in both
/// (`docs/MANUAL.md`, 12; proved of this call). Needs 256 KiB of free stack.
pub fn run_both(
    program: &[u8],
    networks: [&mut [i32]; 2],
    lists: [&[u8]; 2],
    spaces: [&mut [i32]; 2],
) -> [Result<(), Refusal>; 2] {
    plain::run_both(program, networks, lists, spaces).map(result)
}
