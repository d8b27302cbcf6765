use core::fmt;

use crate::words::words;
use crate::{ANSWER, INF};

/// The answer to one event.
///
/// More answers will come, and [`Done`](Answer::Done) will say more: match with a last `_`, and with `Answer::Done {
/// value, .. }`.
#[derive(Clone, Copy, Debug, PartialEq, Eq)]
#[non_exhaustive]
pub enum Answer {
    /// 0: done.
    #[non_exhaustive]
    Done {
        /// The value of a fire, 0 for other events.
        value: i32,
    },
    /// 14: a device, sensor, switch or distance is out of range.
    OutOfRange,
    /// 15: from a device to itself.
    Itself,
    /// 16: nothing is pending.
    NothingPending,
    /// 17: this node divided by 0.
    DividedByZero(i32),
}

impl Answer {
    /// From the two numbers of an answer; none for numbers the engine never writes.
    pub fn from_pair(pair: [i32; ANSWER]) -> Option<Answer> {
        Some(match pair {
            [0, value] => Answer::Done { value },
            [14, 0] => Answer::OutOfRange,
            [15, 0] => Answer::Itself,
            [16, 0] => Answer::NothingPending,
            [17, node] => Answer::DividedByZero(node),
            _ => return None,
        })
    }

    /// The answer's first number: 0, or 14 to 17.
    pub fn number(self) -> u32 {
        match self {
            Answer::Done { .. } => 0,
            Answer::OutOfRange => 14,
            Answer::Itself => 15,
            Answer::NothingPending => 16,
            Answer::DividedByZero(_) => 17,
        }
    }

    /// A short name for the number.
    pub fn name(self) -> &'static str {
        words(self.number()).0
    }

    /// The value of a fire that was done, 0 for other events that were; none for a refused event.
    pub fn value(self) -> Option<i32> {
        match self {
            Answer::Done { value } => Some(value),
            _ => None,
        }
    }

    /// What came of the event, in a sentence for people; the answer itself is shown so too.
    pub fn sentence(self) -> impl fmt::Display + fmt::Debug {
        self
    }
}

impl fmt::Display for Answer {
    fn fmt(&self, f: &mut fmt::Formatter) -> fmt::Result {
        match self {
            Answer::Done { value: INF } => f.write_str("Done; the value is inf."),
            Answer::Done { value } => write!(f, "Done; the value is {value}."),
            Answer::DividedByZero(node) => {
                write!(f, "The round divided by 0 in node {node}, and the fire changed nothing.")
            }
            _ => f.write_str(words(self.number()).1),
        }
    }
}

/// The answers in a space that a call has filled, [`ANSWER`] numbers each; fewer at the end are left out. None stands
/// for numbers that the engine never writes.
pub fn answers(space: &[i32]) -> impl Iterator<Item = Option<Answer>> + '_ {
    space.chunks_exact(ANSWER).map(|pair| pair.try_into().ok().and_then(Answer::from_pair))
}
