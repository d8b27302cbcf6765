//! The second engine: document 01 once more, with trees for programs and maps for networks.
//!
//! It is the outside check of the proved engine: written from document 01 ("01"), 02's requests, 000's figures, the shared
//! notes and `docs/DECISIONS.md`, with nothing read under `crates/`; of the reader of texts `../README.md` says more.
//! Each call returns 01's number and place, and leaves every buffer as 01 states.
#![deny(warnings)]
#![forbid(unsafe_code)]

mod begins;
mod event;
mod network;
mod number;
mod round;
mod table;
mod text;
mod tree;
mod words;

use event::Event;
use network::Network;
use tree::Program;

/// A refusal of a whole call: its number and its place.
#[derive(Clone, Copy, Debug, PartialEq, Eq)]
struct Refusal {
    number: u32,
    place: usize,
}

fn refused<T>(number: u32, place: usize) -> Result<T, Refusal> {
    Err(Refusal { number, place })
}

fn returned<T>(outcome: Result<T, Refusal>) -> (u32, usize) {
    match outcome {
        Ok(_) => (0, 0),
        Err(refusal) => (refusal.number, refusal.place),
    }
}

/// Checks a program.
pub fn check(program: &[u8]) -> (u32, usize) {
    returned(table::read(program))
}

/// Makes a network fresh.
pub fn fresh(network: &mut [i32]) -> (u32, usize) {
    if network.len() != network::CELLS {
        return (11, 0);
    }
    Network::fresh().encode(network);
    (0, 0)
}

/// Does the one event of `list`.
pub fn event(program: &[u8], network: &mut [i32], list: &[u8], answers: &mut [i32]) -> (u32, usize) {
    returned(carry_out(program, network, || event::only(list), answers))
}

/// Does the events of `list` from first to last.
pub fn run(program: &[u8], network: &mut [i32], list: &[u8], answers: &mut [i32]) -> (u32, usize) {
    returned(carry_out(program, network, || event::all(list), answers))
}

/// Reads a program's text; its table goes to the start of `table`, and its length is the place.
pub fn read_text(text: &[u8], table: &mut [u8]) -> (u32, usize) {
    match compile(text, table) {
        Ok(length) => (0, length),
        Err(refusal) => (refusal.number, refusal.place),
    }
}

fn compile(text: &[u8], space: &mut [u8]) -> Result<usize, Refusal> {
    let bytes = text::read(text)?;
    table::read(&bytes)?;
    match space.get_mut(..bytes.len()) {
        Some(start) => start.copy_from_slice(&bytes),
        None => return refused(13, 0),
    }
    Ok(bytes.len())
}

/// What one event and a run share; `events` reads the list, after program and network are tested.
fn carry_out(
    program: &[u8],
    cells: &mut [i32],
    events: impl Fn() -> Result<Vec<Event>, Refusal>,
    answers: &mut [i32],
) -> Result<(), Refusal> {
    let program: Program = table::read(program)?;
    let mut network = Network::decode(cells)?;
    let events = events()?;
    if answers.len() < 2 * events.len() {
        return refused(13, 0);
    }
    for (event, pair) in events.iter().zip(answers.chunks_exact_mut(2)) {
        let (code, value) = match event.apply(&program, &mut network) {
            Ok(value) => (0, value),
            Err(turned) => (turned.number, turned.value),
        };
        pair[0] = code;
        pair[1] = value;
    }
    network.encode(cells);
    Ok(())
}
