//! Untils watched for longer (document 02, T-09): one sentence beside the same with a greater k2 for one until; and the weights
//! of the runs that a path takes and of those that it does not take.

use super::meaning::{answered, members, shown, Asked, Found};
use super::ways::few_runs;
use super::{agree, Questions, Tally};
use crate::inputs::model::file_of;
use crate::inputs::naming::namings;
use crate::inputs::question::Pair;
use crate::inputs::watch::{self, Kind, Watch};
use crate::inputs::Rng;
use crate::second::meaning::{answer, sums, Answer, Way, ENOUGH};
use crate::second::model::examples::m1;
use crate::second::{read_model, read_sentence, Model};

/// What the untils were that were watched for longer, and what came of it. A lengthening is a sentence and the same with a
/// greater k2 for one until.
#[derive(Clone, Debug, Default, PartialEq, Eq)]
pub struct Watched {
    /// Lengthenings of which both sentences are answered: by one step, and by several.
    pub answered: [u64; 2],
    /// Lengthenings set aside, a sentence being refused.
    pub set_aside: u64,
    /// Answered lengthenings by v.
    pub variables: [u64; 5],
    /// Answered lengthenings with k1 = 0, and with k1 > 0.
    pub from: [u64; 2],
    /// Answered lengthenings whose until stands in no other path, and inside one.
    pub inside: [u64; 2],
    /// Answered lengthenings whose until has a path inside it.
    pub around: u64,
    /// Answered lengthenings to k2 = 60.
    pub to_60: u64,
    /// Answered lengthenings with strictly more at some tuple, and with equality at every tuple asked.
    pub outcomes: [u64; 2],
    /// Tuples at which the numerator is more than the shorter window's times D^(v × steps).
    pub more: u64,
    /// Tuples at which the two are equal: both 0, between, and both the denominator.
    pub equal: [u64; 3],
    /// Tuples at which k1 + 1 with k2 + 1 gives less than the numerator times D^v, and at which it does not.
    pub raised: [u64; 2],
}

impl Watched {
    /// Counts a lengthening that is answered.
    fn count(&mut self, watch: &Watch, steps: u32) {
        self.answered[usize::from(steps > 1)] += 1;
        self.variables[watch.naming.v()] += 1;
        self.from[usize::from(watch.from > 0)] += 1;
        self.inside[usize::from(watch.naming.outer.is_some())] += 1;
        self.around += u64::from(watch.around);
        self.to_60 += u64::from(watch.to + steps == 60);
    }

    /// Counts the fraction of a longer window, whose numerator is at least the given one; tells whether it is more.
    fn outcome(&mut self, (top, bottom): (u64, u64), least: u128) -> bool {
        let more = u128::from(top) > least;
        match top {
            _ if more => self.more += 1,
            0 => self.equal[0] += 1,
            _ => self.equal[1 + usize::from(top == bottom)] += 1,
        }
        more
    }
}

/// Compares `cases` untils of a kind, each lengthened by one step and, where rows 7 and 10 let that through, by several: the
/// library's answers with the request's words, and with the second program's.
pub fn compare_watches<L: Questions>(lib: &L, kind: Kind, cases: usize, seed: u64) -> (Tally, Watched) {
    compare_each(lib, kind, cases, seed, true)
}

/// Compares the library's answers with the request's words alone.
#[cfg(test)]
pub(super) fn compare_words<L: Questions>(lib: &L, kind: Kind, cases: usize, seed: u64) -> (Tally, Watched) {
    compare_each(lib, kind, cases, seed, false)
}

/// Either comparison.
fn compare_each<L: Questions>(
    lib: &L,
    kind: Kind,
    cases: usize,
    seed: u64,
    second: bool,
) -> (Tally, Watched) {
    let mut rng = Rng::new(seed);
    let (mut tally, mut watched) = (Tally::new("numerators of watches"), Watched::default());
    let products = if kind == Kind::Full { 150_000_000 } else { 200_000 };
    for _ in 0..cases {
        let watch = Watch::any(&mut rng, kind);
        let several = watch.several(&mut rng);
        for steps in [Some(1), several].into_iter().flatten() {
            let mut asking =
                Asking { lib, rng: &mut rng, watch: &watch, tally: &mut tally, products, second };
            lengthened(&mut asking, steps, &mut watched);
        }
    }
    (tally, watched)
}

/// A pair with one window for the until, and what the second program answers.
struct Windowed {
    pair: Pair,
    found: Result<Answer, u8>,
}

impl Windowed {
    /// The pair of a watch with a window.
    fn of(watch: &Watch, from: u32, to: u32) -> Windowed {
        let pair = watch.pair_with(from, to);
        let found = answer(&pair.file, &pair.text, Way::Fitting);
        Windowed { pair, found }
    }

    /// The fraction of a path at a tuple, by the second program.
    fn expected(&self, path: usize, at: usize) -> Result<(u64, u64), u8> {
        let fractions = &self.found.as_ref().map_err(|&number| number)?.paths[path];
        Ok((fractions.tops[at], fractions.bottom))
    }
}

/// A library that is asked about the until of a watch.
struct Asking<'a, L> {
    lib: &'a L,
    rng: &'a mut Rng,
    watch: &'a Watch,
    tally: &'a mut Tally,
    /// About how many products the calls for one lengthening may take together.
    products: usize,
    /// Whether its answers are held beside the second program's.
    second: bool,
}

impl<L: Questions> Asking<'_, L> {
    /// What the library answers at a tuple, given by its number.
    fn library(&mut self, windowed: &Windowed, at: usize) -> Result<(u64, u64), u8> {
        let tuple = members(self.watch.model.n as usize, self.watch.sentence.letters, at);
        let room = windowed.pair.enough_room(self.rng);
        answered(self.lib, self.rng, &Asked { pair: &windowed.pair, tuple, path: self.watch.path, room })
    }

    /// Holds that answer beside the second program's, and counts it.
    fn beside_second(&mut self, windowed: &Windowed, at: usize, got: Result<(u64, u64), u8>) {
        if self.second {
            let expected = windowed.expected(self.watch.path, at);
            agree("numerator", &expected, &got, || told(self.watch, at, &windowed.pair));
        }
        self.tally.count(&got);
        if let Ok((top, bottom)) = got {
            self.tally.reach.fraction(top, bottom);
        }
    }

    /// The tuples at which two windows are asked: all of them if that takes few products, else some.
    fn tuples(&mut self, longer: &Windowed, found: &Answer) -> Vec<usize> {
        let all = found.paths[self.watch.path].tops.len();
        let calls = (self.products / Found { pair: &longer.pair, found }.cost()).max(4);
        if calls < all {
            return (0..calls).map(|_| self.rng.below(all)).collect();
        }
        self.tally.reach.every += 1;
        self.tally.reach.every_full += u64::from(all == 1_024);
        (0..all).collect()
    }
}

/// One until for a report.
fn told(watch: &Watch, at: usize, pair: &Pair) -> String {
    format!(
        "  path {} with the window {}..{} at tuple {at}\n{}",
        watch.path,
        watch.from,
        watch.to,
        shown(pair)
    )
}

/// One lengthening: what the request says of the library's two answers at each tuple; then each beside the second program's.
fn lengthened<L: Questions>(asking: &mut Asking<L>, steps: u32, watched: &mut Watched) {
    let watch = asking.watch;
    let shorter = Windowed::of(watch, watch.from, watch.to);
    let longer = Windowed::of(watch, watch.from, watch.to + steps);
    let (Ok(_), Ok(found)) = (&shorter.found, &longer.found) else {
        watched.set_aside += 1;
        for windowed in [&shorter, &longer] {
            let got = asking.library(windowed, 0);
            asking.beside_second(windowed, 0, got);
        }
        return;
    };
    watched.count(watch, steps);
    asking.tally.reach.count(&longer.pair);
    let raised = (steps == 1).then(|| Windowed::of(watch, watch.from + 1, watch.to + 1));
    let mut more = false;
    for at in asking.tuples(&longer, found) {
        let got = [asking.library(&shorter, at), asking.library(&longer, at)];
        if let [Ok(one), Ok(other)] = got {
            let least = no_run_lost(watch, steps, one, other, || told(watch, at, &longer.pair));
            more |= watched.outcome(other, least);
            raised.iter().for_each(|raised| count_raised(asking, watched, raised, at, least));
        }
        asking.beside_second(&shorter, at, got[0]);
        asking.beside_second(&longer, at, got[1]);
    }
    watched.outcomes[usize::from(!more)] += 1;
}

/// The request's words about two fractions of a library: the denominator grows by the factor D^(v × steps), and the
/// numerator by that or more. Gives the least that it can be.
fn no_run_lost(
    watch: &Watch,
    steps: u32,
    shorter: (u64, u64),
    longer: (u64, u64),
    told: impl Fn() -> String,
) -> u128 {
    let factor = watch.factor(steps);
    let (least, top) = (u128::from(shorter.0) * factor, u128::from(longer.0));
    agree("the longer watch's denominator", &(u128::from(shorter.1) * factor), &u128::from(longer.1), &told);
    // Equal unless the numerator is less than the least.
    agree("the longer watch's least numerator", &top.max(least), &top, &told);
    least
}

/// The window k1 + 1..k2 + 1 at a tuple: counts whether it gives less than k1..k2 times D^v, which k1..k2 + 1 never does.
fn count_raised<L: Questions>(
    asking: &mut Asking<L>,
    watched: &mut Watched,
    raised: &Windowed,
    at: usize,
    least: u128,
) {
    let got = asking.library(raised, at);
    asking.beside_second(raised, at, got);
    if let Ok((top, _)) = got {
        watched.raised[usize::from(u128::from(top) >= least)] += 1;
    }
}

/// What was summed over runs.
#[derive(Clone, Debug, Default, PartialEq, Eq)]
pub struct Summed {
    /// Sentences of which every run of every path was listed.
    pub sentences: u64,
    /// Their nexts by v.
    pub nexts: [u64; 5],
    /// Their untils by v.
    pub untils: [u64; 5],
    /// Tuples at which no run of some weight is taken, at which some are, and at which all are.
    pub tuples: [u64; 3],
}

/// Compares numerators and denominators with sums over runs on `cases` pairs whose runs are few: the numerator is the weight of
/// the runs taken, the denominator that and the weight of the runs not taken, which is a sum of its own.
pub fn compare_sums<L: Questions>(lib: &L, cases: u64, seed: u64) -> (Tally, Summed) {
    let mut rng = Rng::new(seed);
    let (mut tally, mut summed) = (Tally::new("sums over runs"), Summed::default());
    while summed.sentences < cases {
        let kind = rng.pick(&[Kind::Any, Kind::Later]);
        let pair = watch::pair(&mut rng, kind);
        let few = read_model(&pair.file).is_ok_and(|model| few_runs(&model, &pair.text));
        // Refused, or without a path, it has no sums.
        if few && sums(&pair.file, &pair.text, 0).is_ok() {
            summed.sentences += 1;
            tally.reach.count(&pair);
            sums_case(lib, &mut rng, &mut tally, &mut summed, &pair);
        }
    }
    (tally, summed)
}

/// Every path of a pair at every tuple beside its sums over runs.
fn sums_case<L: Questions>(lib: &L, rng: &mut Rng, tally: &mut Tally, summed: &mut Summed, pair: &Pair) {
    let sentence = read_sentence(&pair.text).expect("a pair that is answered");
    for (path, naming) in namings(&sentence).iter().enumerate() {
        let counts = if naming.next { &mut summed.nexts } else { &mut summed.untils };
        counts[naming.v()] += 1;
        let sums = sums(&pair.file, &pair.text, path).expect("a pair that is answered");
        for (at, (taken, not_taken)) in sums.taken.into_iter().zip(sums.not_taken).enumerate() {
            let tuple = members(usize::from(pair.file[1]), sentence.letters, at);
            let asked = Asked { pair, tuple, path, room: pair.enough_room(rng) };
            let got = answered(lib, rng, &asked);
            let expected = Ok((taken, taken + not_taken));
            agree("numerator and denominator by runs", &expected, &got, || {
                format!("  path {path} at tuple {at}\n{}", shown(pair))
            });
            tally.count(&got);
            summed.tuples[usize::from(taken > 0) + usize::from(not_taken == 0)] += 1;
        }
    }
}

/// Windows on M1, and on a model that leaves state 0 for good, with the numbers that follow from the document's words: an
/// until with a gap for k2, the tuple, the first k2 and the fractions from there on.
pub fn compare_watch_examples<L: Questions>(lib: &L) {
    // From state 0 a quarter goes to state 1, the rest to state 2; both stay.
    let mut fork = Model { n: 3, a: 1, d: 4, version: 1, ..Model::empty() };
    fork.masks[1] = 1;
    fork.weights[0][1..3].copy_from_slice(&[1, 3]);
    for (model, until, tuple, first, fractions) in [
        (&m1(), "PU0,%:Ta1", &[0][..], 0, &[(0, 1), (1, 4), (7, 16), (37, 64)][..]),
        (&m1(), "PU0,%:Ta1", &[1], 0, &[(1, 1), (4, 4), (16, 16)]),
        (&m1(), "PU2,%:!a1a1", &[0], 2, &[(3, 16), (12 + 9, 64)]),
        (&m1(), "PU2,%:!a1a1", &[1], 2, &[(0, 16), (0, 64)]),
        // With k1 raised as well nothing is left of 1/1.
        (&m1(), "PU0,%:!a1a1", &[1], 0, &[(1, 1), (4, 4)]),
        (&m1(), "PU1,%:!a1a1", &[1], 1, &[(0, 4)]),
        // Two variables, and then a third that is not named.
        (&m1(), "PU0,%:T&a1a2", &[0, 0], 0, &[(0, 1), (1, 16), (49, 256)]),
        (&m1(), "PU0,%:T&a1a3", &[0, 1, 0], 0, &[(0, 1), (1, 16), (49, 256)]),
        (&m1(), "PU0,%:!TT", &[0], 58, &[(1, 1), (1, 1), (1, 1)]),
        (&fork, "PU0,%:Ta1", &[0], 0, &[(0, 1), (1, 4), (4, 16), (16, 64)]),
    ] {
        for (k2, fraction) in (first..).zip(fractions) {
            let text = format!("{}.={}#0/1;", "A".repeat(tuple.len()), until.replace('%', &k2.to_string()));
            let got = lib.numerator(&file_of(model), text.as_bytes(), tuple, 0, &mut [1; ENOUGH]);
            agree("the example's fraction", &Ok(*fraction), &got, || format!("  {text} at {tuple:?}\n"));
        }
    }
}
