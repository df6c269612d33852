//! Comparisons of a library with the second program.
//!
//! Each function runs so many seeded cases of one area. For each case it
//! compares the library's answer with that of [`crate::second`], and the lent
//! memory before and after: inputs stay as they are, an output changes in
//! nothing but what is written, a refusal changes nothing. A difference stops
//! the run with a report of the input. The returned [`Tally`] counts the cases
//! by answer, and every answer that the area has must have been given.

mod areas;
mod examples;
#[cfg(test)]
mod faults;
mod meaning;
mod merging;
mod models;
mod naming;
#[cfg(test)]
mod naming_faults;
mod reach;
#[cfg(test)]
mod room_faults;
mod rooms;
mod sentences;
#[cfg(test)]
mod version_faults;
mod versions;
#[cfg(test)]
mod watch_faults;
mod watches;
mod ways;

use crate::inputs::Rng;
use crate::second::{self, Model, Sentence};
use std::fmt::{self, Debug, Display};

pub use examples::compare_examples;
pub use meaning::{compare_extreme, compare_full, compare_numerator, compare_row_15, compare_verdict};
pub use merging::{compare_filled, compare_kept, compare_merge};
pub use models::{compare_model_reader, compare_model_writer};
pub use naming::{compare_naming, compare_naming_examples, compare_nothing, compare_row_10, Named};
pub use reach::Reach;
pub use rooms::{compare_every_room, compare_just_room, compare_room_last, compare_rooms};
pub use sentences::{compare_sentence_reader, compare_sentence_writer};
pub use versions::{compare_empty_rows, compare_version_limits};
pub use watches::{compare_sums, compare_watch_examples, compare_watches, Summed, Watched};
pub use ways::compare_ways;

/// Reading and writing model files. A refusal is its number, here and in every call below.
pub trait Models {
    /// Reads a model file.
    fn read_model(&self, file: &[u8]) -> Result<Model, u8>;
    /// Writes a model's file to the front of `out`; tells its length.
    fn write_model(&self, model: &Model, out: &mut [u8]) -> Result<usize, u8>;
}

/// Reading and writing sentence texts.
pub trait Sentences {
    /// Reads a sentence text.
    fn read_sentence(&self, text: &[u8]) -> Result<Sentence, u8>;
    /// Writes a sentence's text to the front of `out`; tells its length.
    fn write_sentence(&self, sentence: &Sentence, out: &mut [u8]) -> Result<usize, u8>;
}

/// Sentences asked of models.
pub trait Questions {
    /// Whether a sentence holds on a model.
    fn verdict(&self, file: &[u8], text: &[u8], work: &mut [u64]) -> Result<bool, u8>;
    /// The numerator and denominator of a path formula at a tuple.
    fn numerator(
        &self,
        file: &[u8],
        text: &[u8],
        tuple: &[u8],
        path: usize,
        work: &mut [u64],
    ) -> Result<(u64, u64), u8>;
}

/// Merging.
pub trait Merges {
    /// Writes the model merged by a grouping to the front of `out`; tells its length.
    fn merge(&self, file: &[u8], grouping: &[u8], out: &mut [u8]) -> Result<usize, u8>;
}

/// All the calls of the document, on numbers and byte slices.
pub trait Library: Models + Sentences + Questions + Merges {}

impl<L: Models + Sentences + Questions + Merges> Library for L {}

/// The second program as a library: held to the document's examples, and timed beside the proved library.
#[derive(Clone, Copy, Debug)]
pub struct Second;

impl Models for Second {
    fn read_model(&self, file: &[u8]) -> Result<Model, u8> {
        second::read_model(file)
    }

    fn write_model(&self, model: &Model, out: &mut [u8]) -> Result<usize, u8> {
        second::write_model(model, out)
    }
}

impl Sentences for Second {
    fn read_sentence(&self, text: &[u8]) -> Result<Sentence, u8> {
        second::read_sentence(text)
    }

    fn write_sentence(&self, sentence: &Sentence, out: &mut [u8]) -> Result<usize, u8> {
        second::write_sentence(sentence, out)
    }
}

impl Questions for Second {
    fn verdict(&self, file: &[u8], text: &[u8], work: &mut [u64]) -> Result<bool, u8> {
        second::verdict(file, text, work)
    }

    fn numerator(
        &self,
        file: &[u8],
        text: &[u8],
        tuple: &[u8],
        path: usize,
        work: &mut [u64],
    ) -> Result<(u64, u64), u8> {
        second::numerator(file, text, tuple, path, work)
    }
}

impl Merges for Second {
    fn merge(&self, file: &[u8], grouping: &[u8], out: &mut [u8]) -> Result<usize, u8> {
        second::merge(file, grouping, out)
    }
}

/// How often each answer was given in an area.
#[derive(Clone, Debug)]
pub struct Tally {
    /// The area.
    pub area: &'static str,
    /// Cases that ended in an answer.
    pub answered: u64,
    /// Verdicts 'holds' among them.
    pub holds: u64,
    /// Verdicts 'fails' among them.
    pub fails: u64,
    /// Cases refused, by number; place 0 stays 0.
    pub refused: [u64; 16],
    /// Numerators that were asked beside the cases of another call.
    pub numerators: u64,
    /// What the answered cases had.
    pub reach: Reach,
}

impl Tally {
    /// A tally of an area with nothing counted.
    pub fn new(area: &'static str) -> Tally {
        let reach = Reach::default();
        Tally { area, answered: 0, holds: 0, fails: 0, refused: [0; 16], numerators: 0, reach }
    }

    /// Counts one answer that was found equal to the second program's.
    fn count<T>(&mut self, answer: &Result<T, u8>) {
        match answer {
            Ok(_) => self.answered += 1,
            Err(number) => self.refused[usize::from(*number)] += 1,
        }
    }

    /// All cases.
    pub fn cases(&self) -> u64 {
        self.answered + self.refused.iter().sum::<u64>()
    }

    /// Stops unless there were at least so many answers, and so many refusals of each given number.
    pub fn require_each(&self, least: u64, numbers: &[usize]) {
        assert!(self.answered >= least, "{self}: too few answers");
        for &number in numbers {
            assert!(self.refused[number] >= least, "{self}: too few refusals of {number}");
        }
    }

    /// Stops unless there were answers, and refusals of exactly the given numbers.
    fn require(&self, numbers: &[usize]) {
        assert!(self.answered > 0, "{self}: nothing was answered");
        for number in 1..16 {
            let reached = self.refused[number] > 0;
            assert_eq!(reached, numbers.contains(&number), "{self}: refusal {number} is amiss");
        }
    }
}

impl Display for Tally {
    fn fmt(&self, f: &mut fmt::Formatter<'_>) -> fmt::Result {
        write!(f, "{}: {} cases, {} answered", self.area, self.cases(), self.answered)?;
        if self.holds + self.fails > 0 {
            write!(f, " ({} hold, {} fail)", self.holds, self.fails)?;
        }
        for (number, count) in self.refused.iter().enumerate().filter(|(_, &count)| count > 0) {
            write!(f, ", {number}: {count}")?;
        }
        if self.numerators > 0 {
            write!(f, "; {} numerators", self.numerators)?;
        }
        self.reach.tell_versions(f)
    }
}

/// The exported calls, each compared on cases of its own.
#[derive(Clone, Copy, Debug, PartialEq, Eq)]
pub enum Area {
    /// Read model; what is read is written again.
    ReadModel,
    /// Write model; what is written is read again.
    WriteModel,
    /// Read sentence; what is read is written again.
    ReadSentence,
    /// Write sentence; what is written is read again.
    WriteSentence,
    /// Verdict.
    Verdict,
    /// Numerator.
    Numerator,
    /// Merge.
    Merge,
}

impl Area {
    /// All the calls, and the rows of each.
    pub const ALL: [(Area, &'static str, &'static [usize]); 7] = [
        (Area::ReadModel, "read model", &[2, 3, 4, 5]),
        (Area::WriteModel, "write model", &[4, 5, 14]),
        (Area::ReadSentence, "read sentence", &[6, 7, 8]),
        (Area::WriteSentence, "write sentence", &[6, 7, 14]),
        (Area::Verdict, "verdict", &[1, 2, 3, 4, 5, 6, 7, 8, 9, 10, 11]),
        (Area::Numerator, "numerator", &[1, 2, 3, 4, 5, 6, 7, 8, 9, 10, 11, 15]),
        (Area::Merge, "merge", &[2, 3, 4, 5, 12, 13, 14]),
    ];

    /// Compares one random case of the call (for numerator: of one pair).
    pub fn case<L: Library>(self, lib: &L, rng: &mut Rng, tally: &mut Tally) {
        match self {
            Area::ReadModel => models::any_read(lib, rng, tally),
            Area::WriteModel => models::any_write(lib, rng, tally),
            Area::ReadSentence => sentences::any_read(lib, rng, tally),
            Area::WriteSentence => sentences::any_write(lib, rng, tally),
            Area::Verdict => meaning::any_verdict(lib, rng, tally),
            Area::Numerator => meaning::any_numerator(lib, rng, tally),
            Area::Merge => merging::any_merge(lib, rng, tally),
        }
    }
}

/// Stops with a report unless two values are equal. `expected` is the second program's.
fn agree<T: PartialEq + Debug>(what: &str, expected: &T, got: &T, input: impl FnOnce() -> String) {
    if expected != got {
        panic!("{what} differs\n  expected {}\n  got      {}\n{}", brief(expected), brief(got), input());
    }
}

/// A value's debug text, cut where it gets long.
fn brief(value: &impl Debug) -> String {
    let mut text = format!("{value:?}");
    if text.len() > 3_000 {
        text.truncate(3_000);
        text.push_str("..");
    }
    text
}

/// A file for a report: its length and the bytes of it that are not zero.
fn shown_file(file: &[u8]) -> String {
    let bytes = file.iter().enumerate().filter(|(_, &byte)| byte != 0);
    let list: Vec<String> = bytes.map(|(place, byte)| format!("{place}:{byte}")).collect();
    format!("  file of {} bytes, not zero at {}\n", file.len(), list.join(" "))
}

/// A text for a report.
fn shown_text(text: &[u8]) -> String {
    format!("  text of {} bytes: {}\n", text.len(), text.escape_ascii())
}

/// A lent output of a given length, with anything in it.
fn output(rng: &mut Rng, length: usize) -> Vec<u8> {
    let mut out = Vec::with_capacity(length + 8);
    while out.len() < length {
        out.extend_from_slice(&rng.bits().to_le_bytes());
    }
    out.truncate(length);
    out
}

/// Checks a lent output after a call: what was written is at its front, what is
/// beyond stayed; after a refusal all of it stayed.
fn output_after(
    what: &str,
    answer: &Result<usize, u8>,
    written: &[u8],
    before: &[u8],
    after: &[u8],
    input: impl FnOnce() -> String,
) {
    let mut expected = before.to_vec();
    if let Ok(length) = answer {
        expected[..*length].copy_from_slice(&written[..*length]);
    }
    agree(&format!("{what}: the output"), &expected.as_slice(), &after, input);
}

#[cfg(test)]
mod tests {
    use super::*;

    #[test]
    fn the_examples_hold_of_second() {
        compare_examples(&Second);
        compare_empty_rows(&Second);
        compare_naming_examples(&Second);
        compare_watch_examples(&Second);
    }

    #[test]
    fn the_limits_of_the_versions_hold_of_second() {
        compare_version_limits(&Second);
    }
}
