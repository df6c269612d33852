//! The two ways of the second program, with each other: runs listed one by one, and a table over the window.

use super::{agree, shown_text, Tally};
use crate::inputs::model::file_of;
use crate::inputs::naming::namings;
use crate::inputs::question::{chain, fitting_sentence};
use crate::inputs::Rng;
use crate::second::meaning::{answer, Way};
use crate::second::{read_sentence, Model};

/// The most runs that are listed for one path of a pair.
const RUNS: u64 = 20_000;

/// Compares both ways on random pairs until `cases` of them had a path: the
/// verdict and every numerator.
pub fn compare_ways(cases: u64, seed: u64) -> Tally {
    let mut rng = Rng::new(seed);
    let mut tally = Tally::new("two ways of second");
    while tally.answered < cases {
        let tuples = rng.pick(&[4, 9, 9, 16]);
        let (model, letters) = chain(&mut rng, tuples);
        let size = rng.between(3, 14);
        let text = fitting_sentence(&mut rng, &model, letters, size).text();
        if !few_runs(&model, &text) {
            continue;
        }
        let file = file_of(&model);
        let by_runs = answer(&file, &text, Way::Runs);
        agree("the table", &by_runs, &answer(&file, &text, Way::Table), || shown_text(&text));
        if let Some(found) = by_runs.ok().filter(|found| !found.paths.is_empty()) {
            tally.answered += 1;
            tally.holds += u64::from(found.holds);
            tally.fails += u64::from(!found.holds);
            tally.reach.letters[letters] += 1;
            tally.reach.model(&model);
            tally.reach.below_zero += u64::from(found.below_zero);
            tally.numerators += found.paths.iter().map(|path| path.tops.len() as u64).sum::<u64>();
        }
    }
    tally
}

/// Whether listing the runs of every path stays within some thousands.
pub(super) fn few_runs(model: &Model, text: &[u8]) -> bool {
    let Ok(sentence) = read_sentence(text) else {
        return false;
    };
    // All runs of v variables from all tuples: N^n × N^(v × steps).
    let runs = |v: usize, steps: usize| u64::from(model.n).checked_pow((sentence.letters + v * steps) as u32);
    namings(&sentence).iter().all(|path| runs(path.v(), path.steps).is_some_and(|runs| runs <= RUNS))
}
