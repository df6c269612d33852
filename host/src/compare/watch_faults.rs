//! Libraries with one fault of T-09 each: runs that are lost as a window grows, runs that are counted otherwise. Each must be
//! found by the comparisons of its area, and those that lose runs by the request's words alone.

use super::faults::noticed;
use super::watches::compare_words;
use super::*;
use crate::inputs::question::Pair;
use crate::inputs::watch::{Kind, Watch};
use crate::second::meaning::ENOUGH;

/// What a library does wrong about runs.
#[derive(Clone, Copy, Debug, PartialEq, Eq)]
enum Fault {
    // Runs are lost as the window grows.
    MatchesBeforeTheLastStepLost,
    NumeratorOfOneStepLess,
    RestOfTheRunForgotten,
    FirstMomentLeftOut,
    // The denominator does not grow with the window.
    DenominatorOfOneStepLess,
    // Other runs are counted, or the same ones more often.
    OncePerMoment,
    UntilNotTaken,
    NextNotTaken,
}

/// The second program with one fault of T-09.
struct Faulty(Fault);

impl Faulty {
    /// What the library gives for the fraction of an until at a tuple.
    fn until(&self, watch: &Watch, tuple: &[u8], (top, bottom): (u64, u64)) -> (u64, u64) {
        let (from, to) = (watch.from, watch.to);
        let joint = watch.factor(1) as u64;
        let numerator = |from: u32, to: u32| {
            let pair = watch.pair_with(from, to);
            // A text that gets longer than 400 bytes cannot be asked.
            second::numerator(&pair.file, &pair.text, tuple, watch.path, &mut [0; ENOUGH])
                .map_or(top, |it| it.0)
        };
        // The weight, up to a moment, of the runs that match there for the first time.
        let first_match = |moment: u32| match moment {
            _ if moment == from => numerator(from, from),
            _ => numerator(from, moment) - numerator(from, moment - 1) * joint,
        };
        match self.0 {
            Fault::MatchesBeforeTheLastStepLost => (numerator(to, to), bottom),
            Fault::NumeratorOfOneStepLess if from < to => (numerator(from, to - 1), bottom),
            Fault::RestOfTheRunForgotten => ((from..=to).map(first_match).sum(), bottom),
            Fault::FirstMomentLeftOut if from < to => (numerator(from + 1, to), bottom),
            Fault::DenominatorOfOneStepLess if to > 0 => (top, bottom / joint),
            Fault::OncePerMoment => {
                let moments = (from..=to).map(|moment| numerator(moment, moment) * joint.pow(to - moment));
                (moments.fold(0, u64::saturating_add), bottom)
            }
            Fault::UntilNotTaken => (bottom - top, bottom),
            _ => (top, bottom),
        }
    }
}

impl Questions for Faulty {
    fn verdict(&self, file: &[u8], text: &[u8], work: &mut [u64]) -> Result<bool, u8> {
        second::verdict(file, text, work)
    }

    fn numerator(
        &self,
        file: &[u8],
        text: &[u8],
        tuple: &[u8],
        path: usize,
        work: &mut [u64],
    ) -> Result<(u64, u64), u8> {
        let right = second::numerator(file, text, tuple, path, work)?;
        let pair = Pair { file: file.to_vec(), text: text.to_vec() };
        Ok(match Watch::of(&pair, path) {
            Some(watch) => self.until(&watch, tuple, right),
            None if self.0 == Fault::NextNotTaken => (right.1 - right.0, right.1),
            None => right,
        })
    }
}

/// Stops unless a comparison finds a fault, with a report that has the given words.
fn found(fault: Fault, words: &str, comparison: impl FnOnce(&Faulty) -> Tally) {
    let report = noticed(&format!("{fault:?}"), || comparison(&Faulty(fault)));
    assert!(report.contains(words), "{fault:?}: {report}");
}

/// The faults of until.
const UNTIL: [Fault; 7] = [
    Fault::MatchesBeforeTheLastStepLost,
    Fault::NumeratorOfOneStepLess,
    Fault::RestOfTheRunForgotten,
    Fault::FirstMomentLeftOut,
    Fault::DenominatorOfOneStepLess,
    Fault::OncePerMoment,
    Fault::UntilNotTaken,
];

/// The kinds of few tuples.
const KINDS: [Kind; 3] = [Kind::Any, Kind::Later, Kind::Ends];

#[test]
fn lost_runs_are_found_by_the_words_of_the_request() {
    use Fault::*;
    for kind in KINDS {
        for fault in [
            MatchesBeforeTheLastStepLost,
            NumeratorOfOneStepLess,
            RestOfTheRunForgotten,
            FirstMomentLeftOut,
            UntilNotTaken,
        ] {
            found(fault, "least numerator differs", |lib| compare_words(lib, kind, 2_000, 131).0);
        }
        found(DenominatorOfOneStepLess, "denominator differs", |lib| compare_words(lib, kind, 2_000, 132).0);
    }
}

#[test]
fn the_words_of_the_request_find_no_fault_in_second() {
    for kind in KINDS {
        compare_words(&Second, kind, 100, 133);
    }
}

#[test]
fn each_fault_of_until_is_found_beside_second() {
    for fault in UNTIL {
        for kind in KINDS {
            found(fault, "differs", |lib| compare_watches(lib, kind, 2_000, 134).0);
        }
        found(fault, "by runs differs", |lib| compare_sums(lib, 2_000, 135).0);
    }
}

#[test]
fn a_fault_of_next_is_found_by_sums_over_runs() {
    found(Fault::NextNotTaken, "by runs differs", |lib| compare_sums(lib, 2_000, 136).0);
}

#[test]
fn faults_are_found_by_the_examples() {
    for fault in UNTIL {
        found(fault, "differs", |lib| {
            compare_watch_examples(lib);
            Tally::new("examples")
        });
    }
}
