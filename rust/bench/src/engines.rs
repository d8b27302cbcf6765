//! The engines that are timed, each with the sizes of its buffers.

use cases::random::Random;
use cases::table::{bytes, write, Draft, Tree};
use cases::{events, network};
use differ::{Engine, Reader, Second};
use std::fmt;

/// The cells of a network and the numbers of an answer.
#[derive(Clone, Copy, PartialEq)]
pub struct Sizes {
    pub cells: usize,
    pub answer: usize,
}

impl fmt::Display for Sizes {
    fn fmt(&self, f: &mut fmt::Formatter) -> fmt::Result {
        write!(f, "networks of {} cells, answers of {} numbers", self.cells, self.answer)
    }
}

/// Today's.
pub const NOW: Sizes = Sizes { cells: network::CELLS, answer: 2 };

/// Which engine it is.
#[derive(Clone, Copy, PartialEq)]
pub enum Which {
    /// The older library, which may not know every kind of node, nor read texts.
    Older,
    #[cfg(feature = "proved")]
    Proved,
    Second,
}

/// An engine that is timed.
pub struct Timed {
    pub which: Which,
    pub engine: &'static dyn Engine,
    /// The same as a reader of texts, if it is one.
    pub reader: Option<&'static dyn Reader>,
    pub sizes: Sizes,
}

/// The older library of the proved engine.
#[cfg(feature = "before")]
struct Before;

#[cfg(feature = "before")]
impl Engine for Before {
    fn name(&self) -> String {
        "before".into()
    }
    fn check(&self, program: &[u8]) -> differ::Returned {
        before::check(program)
    }
    fn fresh(&self, network: &mut [i32]) -> differ::Returned {
        before::fresh(network)
    }
    fn event(&self, program: &[u8], network: &mut [i32], list: &[u8], answers: &mut [i32]) -> differ::Returned {
        before::event(program, network, list, answers)
    }
    fn run(&self, program: &[u8], network: &mut [i32], list: &[u8], answers: &mut [i32]) -> differ::Returned {
        before::run(program, network, list, answers)
    }
}

#[cfg(feature = "before")]
impl Reader for Before {
    fn read_text(&self, text: &[u8], table: &mut [u8]) -> differ::Returned {
        before::READ_TEXT.expect("only a library that has it is asked")(text, table)
    }
}

/// All engines of this build: the older library, which has these sizes, the proved engine, the second one.
pub fn all(before: Sizes) -> Vec<Timed> {
    let older: Option<Timed> = {
        #[cfg(feature = "before")]
        {
            let reader = before::READ_TEXT.map(|_| &Before as &dyn Reader);
            Some(Timed { which: Which::Older, engine: &Before, reader, sizes: before })
        }
        #[cfg(not(feature = "before"))]
        {
            let _ = before;
            None
        }
    };
    let proved: Option<Timed> = {
        #[cfg(feature = "proved")]
        {
            Some(Timed { which: Which::Proved, engine: &differ::Proved, reader: Some(&differ::Proved), sizes: NOW })
        }
        #[cfg(not(feature = "proved"))]
        None
    };
    let second = Timed { which: Which::Second, engine: &Second, reader: Some(&Second), sizes: NOW };
    older.into_iter().chain(proved).chain([second]).collect()
}

/// A program's table.
pub fn table(draft: &Draft) -> Vec<u8> {
    bytes(&write(draft, true, &mut Random::new(1, 1)).fields)
}

impl Timed {
    /// Whether the engine can be given this program: an older one refuses kinds that came later (3).
    pub fn knows(&self, program: &[u8]) -> bool {
        self.which != Which::Older || self.engine.check(program).0 != 3
    }

    /// Whether the engine takes networks of its size, and fills exactly its size of an answer.
    pub fn has_its_sizes(&self) -> bool {
        let one = table(&Draft { definitions: vec![], main: Tree::constant(1), orphans: vec![] });
        let mut network = vec![0; self.sizes.cells];
        let mut answer = vec![network::ABSENT; self.sizes.answer];
        self.engine.fresh(&mut network) == (0, 0)
            && self.engine.event(&one, &mut network, &events::signal(1, 1, 1), &mut answer) == (0, 0)
            && !answer.contains(&network::ABSENT)
    }
}
