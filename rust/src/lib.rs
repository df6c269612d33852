//! Twolsken decides HyperPCTL sentences over Markov chains with whole-number weights. This package has its
//! calls for Rust.
//!
//! | Call | Function | Refusals |
//! |---|---|---|
//! | read model | [`read_model`] | 2, 3, 4, 5 |
//! | write model | [`write_model`] | 4, 5, 14 |
//! | read sentence | [`read_sentence`] | 6, 7, 8 |
//! | write sentence | [`write_sentence`] | 6, 7, 14 |
//! | verdict | [`verdict`] | 2 to 11, then 1 |
//! | numerator | [`numerator`] | 2 to 11, 15, then 1 |
//! | merge | [`merge`] | 2 to 5, 12, 13, 14 |
//!
//! A call that refuses returns a [`Refusal`], and everything that was lent to it is as it was. Of the refusals
//! that apply, the one with the smallest number is given, but 1 only where no other applies. A question, which is a
//! verdict or a numerator, takes the model as its file and the sentence as its text, and is lent a work area:
//! [`work_area`] tells how long it has to be, and one of [`WORK_AREA`] numbers is enough for every question. A
//! [`Table`] is a model as a person types it. In a [`Model`] of version 1 a halted state may have an empty row.
//!
//! ```
//! use twolsken::{numerator, verdict, work_area, Fraction, Table, Verdict};
//!
//! let table: Table = "
//!     D 4
//!     labels open
//!     state shut:        shut 3, opened 1
//!     state opened (open): opened 4
//! "
//! .parse()?;
//! let file = table.model.to_file()?;
//!
//! // From every start the chance of `open` after one step is at least 1/4.
//! let text = b"A.GPXa1#1/4;";
//! let mut work = [0; work_area(2, 1)]; // two states, one letter
//! assert_eq!(verdict(&file, text, &mut work)?, Verdict::Holds);
//!
//! // From state 0 it is 1/4.
//! assert_eq!(numerator(&file, text, &[0], 0, &mut work)?, Fraction { numerator: 1, denominator: 4 });
//! # Ok::<(), Box<dyn std::error::Error>>(())
//! ```
//!
//! The library allocates nothing and keeps nothing, and calls may run on several threads at once. Each takes at
//! most 256 KiB of stack.

#![warn(missing_docs)]

mod merging;
mod model;
mod questions;
pub mod raw;
mod refusal;
mod sentence;
mod table;

pub use merging::merge;
pub use model::{read_model, write_model, Model};
pub use questions::{numerator, verdict, work_area, Fraction, Verdict};
pub use refusal::Refusal;
pub use sentence::{read_sentence, write_sentence, Letter, Node, Relation, Sentence};
pub use table::{Table, TableError};

/// The most states of a model.
pub const STATES: usize = 32;
/// The most labels of a model.
pub const LABELS: usize = 16;
/// The greatest D, to which each row that is not empty adds up.
pub const GREATEST_D: u32 = 65_535;
/// The most letters of a sentence's prefix.
pub const LETTERS: usize = 4;
/// The most nodes of a sentence.
pub const NODES: usize = 64;
/// The most tuples of states of a question: N, the number of states, to the power of the letters.
pub const TUPLES: usize = 1_024;
/// The numbers that a work area has at least for each tuple of states.
pub const WORK_PER_TUPLE: usize = 8;
/// The numbers of a work area that is enough for every question; [`work_area`] tells what one question needs.
pub const WORK_AREA: usize = WORK_PER_TUPLE * TUPLES;
/// The bytes of the longest model file.
pub const LONGEST_FILE: usize = 3_072;
/// The bytes of the longest sentence text.
pub const LONGEST_TEXT: usize = 400;
