use core::{error, fmt};

use crate::words::words;
use crate::BLOCK;

/// A call that was refused as a whole, with a number from 1 to 13, or 19 or 20 (`docs/MANUAL.md`, 9).
#[derive(Clone, Debug, PartialEq, Eq)]
#[non_exhaustive]
pub struct Refusal {
    /// Why: enum cuddystove_refusal of the header.
    pub number: u32,
    /// A short name for the number.
    pub name: &'static str,
    /// Where: a field of the program, a node, a cell or an event, all counted from 0; of 19 how many bytes of the text
    /// begin one of the notation; else 0.
    pub place: usize,
}

impl Refusal {
    /// The refusal with this number and place, as [`plain`](crate::plain) returns them.
    pub fn new(number: u32, place: usize) -> Refusal {
        Refusal { number, name: words(number).0, place }
    }

    /// What is wrong, in a sentence for people: the header's, with the place in it.
    pub fn sentence(&self) -> impl fmt::Display + fmt::Debug {
        Sentence { number: self.number, place: self.place }
    }
}

impl fmt::Display for Refusal {
    fn fmt(&self, f: &mut fmt::Formatter) -> fmt::Result {
        write!(f, "refused {} {} ({}): {}", self.number, self.place, self.name, self.sentence())
    }
}

impl error::Error for Refusal {}

#[derive(Debug)]
struct Sentence {
    number: u32,
    place: usize,
}

impl fmt::Display for Sentence {
    fn fmt(&self, f: &mut fmt::Formatter) -> fmt::Result {
        let (sentence, place) = (words(self.number).1, self.place);
        let (general, counted) = match self.number {
            1..=5 => ("A field", "Field"),
            7..=9 => ("A node", "Node"),
            11 => return unsound(f, place),
            12 => ("An event", "Event"),
            19 => return outside(f, sentence.trim_end_matches('.'), place),
            _ => return f.write_str(sentence),
        };
        write!(f, "{counted} {place}{}", sentence.strip_prefix(general).unwrap_or(sentence))
    }
}

/// 19: how much of the text begins one of the notation.
fn outside(f: &mut fmt::Formatter, sentence: &str, place: usize) -> fmt::Result {
    match place {
        0 => write!(f, "{sentence}, and none begins as it does."),
        1 => write!(f, "{sentence}; its first byte begins one."),
        _ => write!(f, "{sentence}; its first {place} bytes begin one."),
    }
}

/// 11: cell 0 may hold every number, so place 0 is the network's length.
fn unsound(f: &mut fmt::Formatter, place: usize) -> fmt::Result {
    if place == 0 {
        return f.write_str("The network is not 8,720 cells long.");
    }
    let (device, cell) = (place / BLOCK + 1, place % BLOCK);
    write!(f, "Cell {place} of the network holds what it may not (device {device}, cell {cell} of its block).")
}
