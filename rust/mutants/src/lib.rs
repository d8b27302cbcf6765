//! A copy of the second engine's sources in which each edit of `edits.rs` can be switched on (made by `build.rs`).
#![forbid(unsafe_code)]
#![allow(warnings)]

use std::cell::Cell;

thread_local! {
    static SWITCHED_ON: Cell<usize> = const { Cell::new(usize::MAX) };
}

/// Whether the edit with this number is switched on; the copy asks at every edited place.
fn bug(number: usize) -> bool {
    SWITCHED_ON.with(|on| on.get() == number)
}

include!(concat!(env!("OUT_DIR"), "/mutants.rs"));

/// The copy with one bug, or with none where the number is no edit's.
#[derive(Clone, Copy, Debug)]
pub struct Mutant(pub usize);

impl Mutant {
    fn on(self) {
        SWITCHED_ON.with(|on| on.set(self.0));
    }

    pub fn name(self) -> &'static str {
        NAMES.get(self.0).copied().unwrap_or("no bug")
    }

    pub fn check(self, program: &[u8]) -> (u32, usize) {
        self.on();
        copy::check(program)
    }

    pub fn fresh(self, network: &mut [i32]) -> (u32, usize) {
        self.on();
        copy::fresh(network)
    }

    pub fn event(self, program: &[u8], network: &mut [i32], list: &[u8], answers: &mut [i32]) -> (u32, usize) {
        self.on();
        copy::event(program, network, list, answers)
    }

    pub fn run(self, program: &[u8], network: &mut [i32], list: &[u8], answers: &mut [i32]) -> (u32, usize) {
        self.on();
        copy::run(program, network, list, answers)
    }

    pub fn read_text(self, text: &[u8], table: &mut [u8]) -> (u32, usize) {
        self.on();
        copy::read_text(text, table)
    }
}

/// One mutant for each edit of the engine.
pub fn all() -> impl Iterator<Item = Mutant> {
    (0..OF_THE_ENGINE).map(Mutant)
}

/// One mutant for each edit of the reader of texts.
pub fn of_texts() -> impl Iterator<Item = Mutant> {
    (OF_THE_ENGINE..NAMES.len()).map(Mutant)
}
