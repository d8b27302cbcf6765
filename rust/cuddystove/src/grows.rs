//! What requests will add to. None of these builds outside the crate; each did before its `#[non_exhaustive]`.
//!
//! ```compile_fail
//! use cuddystove::Answer;
//! fn number(answer: Answer) -> u32 {
//!     match answer {
//!         Answer::Done { .. } => 0,
//!         Answer::OutOfRange => 14,
//!         Answer::Itself => 15,
//!         Answer::NothingPending => 16,
//!         Answer::DividedByZero(_) => 17,
//!     }
//! }
//! ```
//!
//! ```compile_fail
//! let answer = cuddystove::Answer::Done { value: 0 };
//! ```
//!
//! ```compile_fail
//! let refusal = cuddystove::Refusal { number: 6, name: "bad end", place: 0 };
//! ```
//!
//! ```compile_fail
//! use cuddystove::events::NotWritten;
//! fn full(why: NotWritten) -> bool {
//!     match why {
//!         NotWritten::NoByte => false,
//!         NotWritten::NoRoom => true,
//!     }
//! }
//! ```
