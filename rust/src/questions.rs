//! Verdict and numerator, and the work area that they need.

use crate::{raw, Refusal, WORK_PER_TUPLE};
use std::fmt::{self, Display, Formatter};

/// What a sentence is judged to be.
#[derive(Clone, Copy, Debug, PartialEq, Eq, Hash)]
pub enum Verdict {
    /// The sentence holds on the model.
    Holds,
    /// The sentence fails on the model.
    Fails,
}

impl Display for Verdict {
    fn fmt(&self, f: &mut Formatter<'_>) -> fmt::Result {
        f.write_str(match self {
            Verdict::Holds => "holds",
            Verdict::Fails => "fails",
        })
    }
}

/// A probability as the call gives it, not in lowest terms. Fractions are equal if both numbers are: 1/4 and
/// 4/16 differ.
///
/// Runs are runs of the v different variables that the path formula names, nested ones included. If v is 0 the
/// fraction is 0/1 or 1/1.
#[derive(Clone, Copy, Debug, PartialEq, Eq, Hash)]
pub struct Fraction {
    /// The total weight of the runs that the path formula takes.
    pub numerator: u64,
    /// The total weight of all runs: D^v for next, D^(v × k2) for until with the window k1..k2.
    pub denominator: u64,
}

impl Display for Fraction {
    fn fmt(&self, f: &mut Formatter<'_>) -> fmt::Result {
        write!(f, "{}/{}", self.numerator, self.denominator)
    }
}

/// The numbers that the work area of a question has at least, on a model of so many states and with so many letters
/// in the prefix: [`WORK_PER_TUPLE`] × states^letters, or [`usize::MAX`] if that is greater.
///
/// A question of over [`crate::TUPLES`] tuples is refused by 11 however much is lent.
///
/// ```
/// use twolsken::{read_sentence, work_area, Model, WORK_AREA};
///
/// // Five states and one letter: 320 bytes.
/// let work: [u64; work_area(5, 1)] = [0; 40];
/// assert_eq!(size_of_val(&work), 320);
///
/// // Of a model and a sentence that were read.
/// let model = Model { n: 10, ..Model::empty() };
/// let sentence = read_sentence(b"AAE.&a1!&a2a3")?;
/// assert_eq!(work_area(model.n as usize, sentence.prefix.len()), 8_000);
///
/// // The most tuples of an answer: 32 × 32.
/// assert_eq!(work_area(32, 2), WORK_AREA);
/// # Ok::<(), twolsken::Refusal>(())
/// ```
pub const fn work_area(states: usize, letters: usize) -> usize {
    // With so many letters the power of 0 or 1 is itself, and that of any other number is far above a usize.
    let letters = if letters < u32::MAX as usize { letters as u32 } else { u32::MAX };
    WORK_PER_TUPLE.saturating_mul(states.saturating_pow(letters))
}

/// Judges a sentence, given by its text, on a model, given by its file. In version 1 an empty row counts as weight
/// D to the state itself. `work` has at least as many numbers as [`work_area`] tells, with any contents: after an
/// answer that many are zero and those past them unchanged.
///
/// # Errors
/// 2 to 5 as [`crate::read_model`]; 6 to 8 as [`crate::read_sentence`]; 9, a label that the model does not have; 10,
/// the size rule ([`Refusal::SizeRule`]); 11, over 1,024 tuples; where none of these applies 1, `work` is too short.
///
/// ```
/// use twolsken::{verdict, work_area, Refusal, Table, Verdict};
///
/// let table: Table = "
///     D 4
///     labels a
///     state s0:     s0 3, s1 1
///     state s1 (a): s1 4
/// "
/// .parse()?;
/// let file = table.model.to_file()?;
/// let mut work = [0; work_area(2, 2)]; // two states, up to two letters
/// assert_eq!(verdict(&file, b"AE.=PXa1PXa2", &mut work)?, Verdict::Holds);
/// assert_eq!(verdict(&file, b"AA.=PXa1PXa2", &mut work)?, Verdict::Fails);
/// assert_eq!(verdict(&file, b"A.b1", &mut work), Err(Refusal::NoSuchLabel));
///
/// // With three letters this area is too short; that the label is missing comes first.
/// assert_eq!(verdict(&file, b"AAA.a1", &mut work), Err(Refusal::WorkArea));
/// assert_eq!(verdict(&file, b"AAA.b1", &mut work), Err(Refusal::NoSuchLabel));
/// # Ok::<(), Box<dyn std::error::Error>>(())
/// ```
pub fn verdict(file: &[u8], text: &[u8], work: &mut [u64]) -> Result<Verdict, Refusal> {
    // SAFETY: each slice goes with its own length.
    let answer = unsafe {
        raw::twolsken_verdict(
            file.as_ptr(),
            file.len(),
            text.as_ptr(),
            text.len(),
            work.as_mut_ptr(),
            work.len(),
        )
    };
    match answer {
        raw::HOLDS => Ok(Verdict::Holds),
        raw::FAILS => Ok(Verdict::Fails),
        number => Err(Refusal::of(number)),
    }
}

/// Returns the numerator and the denominator of a path formula at a tuple of states, as [`Fraction`] says. `tuple`
/// has one state for each letter of the prefix; `path` counts the path formulas from 0 in written order; `work` and
/// empty rows are as in [`verdict`].
///
/// # Errors
/// 2 to 11 as [`verdict`]; 15, a tuple of another length, a member that is no state, no such path formula; where
/// none of these applies 1, `work` is too short.
///
/// ```
/// use twolsken::{numerator, work_area, Refusal, Table};
///
/// let table: Table = "
///     D 4
///     labels a
///     state s0:     s0 3, s1 1
///     state s1 (a): s1 4
/// "
/// .parse()?;
/// let file = table.model.to_file()?;
/// let mut work = [0; work_area(2, 2)]; // two states, up to two letters
///
/// // The chance of meeting `a` within two steps: 7 of the 16 runs from state 0.
/// let text = b"A.GPU0,2:Ta1#1/2;";
/// assert_eq!(numerator(&file, text, &[0], 0, &mut work)?.to_string(), "7/16");
/// assert_eq!(numerator(&file, text, &[1], 0, &mut work)?.to_string(), "16/16");
/// assert_eq!(numerator(&file, text, &[2], 0, &mut work), Err(Refusal::TupleOrPath));
///
/// // The first path names variable 1 alone, the second both, the third none.
/// let text = b"AA.&GPXa1PX&a1a2=PU0,3:TT#1/1;";
/// assert_eq!(numerator(&file, text, &[0, 0], 0, &mut work)?.to_string(), "1/4");
/// assert_eq!(numerator(&file, text, &[0, 0], 1, &mut work)?.to_string(), "1/16");
/// assert_eq!(numerator(&file, text, &[0, 0], 2, &mut work)?.to_string(), "1/1");
/// # Ok::<(), Box<dyn std::error::Error>>(())
/// ```
pub fn numerator(
    file: &[u8],
    text: &[u8],
    tuple: &[u8],
    path: usize,
    work: &mut [u64],
) -> Result<Fraction, Refusal> {
    let mut value = [0; 2];
    // SAFETY: each slice goes with its own length, and the array has the length that the function writes.
    Refusal::unless_zero(unsafe {
        raw::twolsken_numerator(
            file.as_ptr(),
            file.len(),
            text.as_ptr(),
            text.len(),
            tuple.as_ptr(),
            tuple.len(),
            path,
            work.as_mut_ptr(),
            work.len(),
            &mut value,
        )
    })?;
    let [numerator, denominator] = value;
    Ok(Fraction { numerator, denominator })
}
