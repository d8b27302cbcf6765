//! The calls of `cuddystove::plain`, on an older library of the proved engine (made by `build.rs`). They are declared as
//! today's: a library whose functions take other arguments must not be linked here.
#![deny(warnings, missing_docs)]

include!(concat!(env!("OUT_DIR"), "/plain.rs"));

/// A call that reads a text.
pub type ReadText = fn(&[u8], &mut [u8]) -> (u32, usize);

/// `read_text`, where the library has it.
#[cfg(reads_texts)]
pub const READ_TEXT: Option<ReadText> = Some(read_text);
/// `read_text`, where the library has it.
#[cfg(not(reads_texts))]
pub const READ_TEXT: Option<ReadText> = None;
