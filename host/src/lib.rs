//! Tests of the proved library: an independent second program, written from the document of scope alone, and the
//! comparisons that set a library beside it.
//!
//! * [`second`] answers every call of the document by the plainest means.
//! * [`inputs`] makes seeded inputs: files, texts, records, groupings, right and wrong.
//! * [`compare`] runs a [`compare::Library`] against `second` on those inputs.
//! * [`proved`] is the proved library, with all that it is lent marked beforehand.
//! * [`files`] finds the files of the repository.
//! * [`plain`] has two plain programs to time the library against.
//! * [`picture`] draws the chain of a table.

#![warn(missing_docs)]

pub mod compare;
pub mod files;
pub mod inputs;
pub mod picture;
pub mod plain;
pub mod proved;
pub mod second;
