//! Refusals: their numbers and their words.

use crate::raw::REFUSED;
use std::error::Error;
use std::fmt::{self, Display, Formatter};

/// Why a call refused. Of the refusals that apply a call gives the one with the smallest number, but
/// [`Refusal::WorkArea`] only where no other applies. Later versions may have more of them.
///
/// ```
/// use twolsken::{read_sentence, Refusal};
///
/// let refusal = read_sentence(b"A.a2").unwrap_err();
/// assert_eq!(refusal, Refusal::Range);
/// assert_eq!(refusal.number(), 7);
/// assert_eq!(refusal.to_string(), "refused 7: a constant, a window or a variable is out of its range");
/// ```
#[derive(Clone, Copy, Debug, PartialEq, Eq, PartialOrd, Ord, Hash)]
#[non_exhaustive]
pub enum Refusal {
    /// The work area has fewer numbers than [`crate::work_area`] tells for the question.
    WorkArea = 1,
    /// The model file's length is not a multiple of 512 in 512..3,072.
    FileLength = 2,
    /// Some block's check is wrong.
    Check = 3,
    /// A byte, a field or the number of blocks breaks the layout of the model file; a version above 1 does.
    Layout = 4,
    /// The weights of some state do not add up to D, and are no empty row of version 1.
    RowSum = 5,
    /// The text is not in the grammar or too long; no text of the grammar spells the prefix and the nodes.
    Grammar = 6,
    /// A constant's top over 65,535, its bottom 0 or over 65,535; a window that ends before it begins or
    /// after 60; a variable above the number of letters.
    Range = 7,
    /// The text has over [`crate::NODES`] nodes.
    TooManyNodes = 8,
    /// The sentence has a label letter that the model does not have.
    NoSuchLabel = 9,
    /// Some number of the sentence is above 2^62 by the size rule. A path formula that names v different variables
    /// counts there as D^v, or D^(v × k2) if it is an until; letters that it does not name do not count.
    SizeRule = 10,
    /// There are over [`crate::TUPLES`] tuples of states.
    TooManyTuples = 11,
    /// The grouping is not one number a state, or its numbers are not 0..M−1, each used.
    Grouping = 12,
    /// Two states of a group differ in labels or in weight into some group.
    NotAlike = 13,
    /// The output is shorter than what is to be written.
    OutputShort = 14,
    /// The tuple is not one state for each letter, or there is no such path formula.
    TupleOrPath = 15,
}

impl Refusal {
    /// Every refusal, in the order of the numbers.
    pub const ALL: &'static [Refusal] = &[
        Refusal::WorkArea,
        Refusal::FileLength,
        Refusal::Check,
        Refusal::Layout,
        Refusal::RowSum,
        Refusal::Grammar,
        Refusal::Range,
        Refusal::TooManyNodes,
        Refusal::NoSuchLabel,
        Refusal::SizeRule,
        Refusal::TooManyTuples,
        Refusal::Grouping,
        Refusal::NotAlike,
        Refusal::OutputShort,
        Refusal::TupleOrPath,
    ];

    /// The number.
    ///
    /// ```
    /// assert_eq!(twolsken::Refusal::SizeRule.number(), 10);
    /// ```
    pub fn number(self) -> u8 {
        self as u8
    }

    /// What the number means, in words.
    ///
    /// ```
    /// assert_eq!(twolsken::Refusal::TooManyNodes.words(), "the sentence has over 64 nodes");
    /// ```
    pub fn words(self) -> &'static str {
        match self {
            Refusal::WorkArea => "the work area has fewer than 8 numbers for each tuple of states",
            Refusal::FileLength => "the model file's length is not a multiple of 512 from 512 to 3072",
            Refusal::Check => "the check of some block of the model file is wrong",
            Refusal::Layout => "the model has a byte, a field or a number of blocks that breaks the layout",
            Refusal::RowSum => {
                "the weights of some state do not add up to D, and are no empty row of version 1"
            }
            Refusal::Grammar => "the sentence is not in the grammar, or its text is over 400 bytes long",
            Refusal::Range => "a constant, a window or a variable is out of its range",
            Refusal::TooManyNodes => "the sentence has over 64 nodes",
            Refusal::NoSuchLabel => "the sentence names a label that the model does not have",
            Refusal::SizeRule => "a number of the sentence may be above 2^62",
            Refusal::TooManyTuples => "there are over 1024 tuples of states",
            Refusal::Grouping => {
                "the grouping is not one number for each state, or does not use each number from 0 on"
            }
            Refusal::NotAlike => "two states of a group differ in labels or in weight into some group",
            Refusal::OutputShort => "the output is shorter than what is to be written",
            Refusal::TupleOrPath => {
                "the tuple is not one state for each letter, or there is no path formula of this number"
            }
        }
    }

    /// The refusal of a number that the library answered.
    ///
    /// # Panics
    /// If no refusal has the number: then the archive is not the one that this package is made for.
    pub(crate) fn of(answer: u32) -> Refusal {
        let refusal = Refusal::ALL.iter().find(|refusal| u32::from(refusal.number()) == answer);
        *refusal.unwrap_or_else(|| other_archive(format_args!("the answer {answer}")))
    }

    /// A reader's answer: nothing, or the refusal.
    pub(crate) fn unless_zero(answer: u32) -> Result<(), Refusal> {
        match answer {
            0 => Ok(()),
            number => Err(Refusal::of(number)),
        }
    }

    /// A writer's answer: the bytes that it wrote, or the refusal.
    pub(crate) fn unless_written(answer: u64) -> Result<usize, Refusal> {
        match answer.checked_sub(REFUSED) {
            Some(number) => Err(Refusal::of(number as u32)),
            None => Ok(answer as usize),
        }
    }
}

/// Stops: the library gave something that this package does not know.
pub(crate) fn other_archive(what: fmt::Arguments) -> ! {
    panic!("the archive is not the one that this package is made for: it gave {what}")
}

impl Display for Refusal {
    fn fmt(&self, f: &mut Formatter<'_>) -> fmt::Result {
        write!(f, "refused {}: {}", self.number(), self.words())
    }
}

impl Error for Refusal {}

#[cfg(test)]
mod tests {
    use super::*;
    use crate::{LONGEST_FILE, LONGEST_TEXT, NODES, TUPLES, WORK_PER_TUPLE};

    #[test]
    fn numbers_are_those_of_the_table_of_refusals() {
        let numbers: Vec<u8> = Refusal::ALL.iter().map(|refusal| refusal.number()).collect();
        assert_eq!(numbers, (1..=15).collect::<Vec<u8>>());
    }

    #[test]
    fn words_tell_the_limits() {
        for (refusal, limit) in [
            (Refusal::WorkArea, WORK_PER_TUPLE),
            (Refusal::FileLength, LONGEST_FILE),
            (Refusal::Grammar, LONGEST_TEXT),
            (Refusal::TooManyNodes, NODES),
            (Refusal::TooManyTuples, TUPLES),
        ] {
            assert!(refusal.words().contains(&limit.to_string()), "{refusal}");
        }
    }

    #[test]
    fn answers_are_told_apart() {
        assert_eq!(Refusal::unless_zero(0), Ok(()));
        assert_eq!(Refusal::unless_zero(5), Err(Refusal::RowSum));
        assert_eq!(Refusal::unless_written(1_024), Ok(1_024));
        assert_eq!(Refusal::unless_written(REFUSED + 14), Err(Refusal::OutputShort));
    }

    #[test]
    #[should_panic(expected = "it gave the answer 16")]
    fn an_answer_of_another_archive_stops() {
        Refusal::of(16);
    }
}
