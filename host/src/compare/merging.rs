//! Merging, and what it keeps: numerators, denominators and verdicts.

use super::meaning::{answered, members, said, Asked};
use super::{agree, output, output_after, shown_file, shown_text, Merges, Questions, Tally};
use crate::inputs::grouping::{self, Merging};
use crate::inputs::model::file_of;
use crate::inputs::question::{self, Pair};
use crate::inputs::{naming, Rng};
use crate::second::meaning::{answer, Answer, Way};
use crate::second::{self, read_model, read_sentence};

/// Compares merging on `cases` random models, groupings and outputs.
pub fn compare_merge<L: Merges>(lib: &L, cases: usize, seed: u64) -> Tally {
    let mut rng = Rng::new(seed);
    let mut tally = Tally::new("merge");
    for _ in 0..cases {
        any_merge(lib, &mut rng, &mut tally);
    }
    tally.require(&[2, 3, 4, 5, 12, 13, 14]);
    tally.reach.require_versions(1);
    assert!(tally.reach.mixed.iter().all(|&count| count > 0), "{tally}: {:?}", tally.reach);
    tally
}

/// One random merge.
pub(super) fn any_merge<L: Merges>(lib: &L, rng: &mut Rng, tally: &mut Tally) {
    let merging = grouping::merging(rng);
    merge_case(lib, rng, tally, &merging);
}

/// What merging keeps: for accepted merges of `cases` random ones, a random
/// sentence is asked of the full and of the merged model, and numerators,
/// denominators and verdicts must be equal: by the second program at every
/// tuple, by the library at every tuple where that is cheap and at some elsewhere.
pub fn compare_kept<L: Merges + Questions>(lib: &L, cases: usize, seed: u64) -> Tally {
    let mut rng = Rng::new(seed);
    let mut tally = Tally::new("what merging keeps");
    for _ in 0..cases {
        let merging = grouping::merging(&mut rng);
        if let Some(small) = merge_case(lib, &mut rng, &mut tally, &merging) {
            keeps(lib, &mut rng, &mut tally, &merging, &small);
        }
    }
    let every = tally.reach.every;
    assert!(every > cases as u64 / 10, "{tally}: only {every} merges were asked at every tuple of a path");
    tally.reach.require_versions(1);
    tally
}

/// What an empty row means: for `cases` random models the grouping 0, 1, 2, .. gives the filled file, the same file
/// where no row is empty, and a random sentence is asked of both files as in [`compare_kept`].
pub fn compare_filled<L: Merges + Questions>(lib: &L, cases: usize, seed: u64) -> Tally {
    let mut rng = Rng::new(seed);
    let mut tally = Tally::new("what filling keeps");
    for _ in 0..cases {
        let merging = grouping::identity(&mut rng);
        let given = merge_case(lib, &mut rng, &mut tally, &merging).expect("the grouping 0, 1, 2, ..");
        let model = read_model(&merging.file).expect("a model that was merged");
        let told = || shown(&merging);
        agree("the filled file", &file_of(&model.filled()), &given, told);
        if (0..model.n as usize).all(|state| !model.row_is_empty(state)) {
            agree("a file without an empty row", &merging.file, &given, told);
        }
        keeps(lib, &mut rng, &mut tally, &merging, &given);
    }
    tally.require(&[]);
    tally.reach.require_versions(1);
    tally
}

/// A merging for a report.
fn shown(merging: &Merging) -> String {
    let Merging { file, grouping, room } = merging;
    format!("  grouping {grouping:?}, output of {room}\n{}", shown_file(file))
}

/// One merge; gives the merged file if it was accepted.
pub(super) fn merge_case<L: Merges>(
    lib: &L,
    rng: &mut Rng,
    tally: &mut Tally,
    merging: &Merging,
) -> Option<Vec<u8>> {
    let before = output(rng, merging.room);
    let mut written = before.clone();
    let expected = second::merge(&merging.file, &merging.grouping, &mut written);
    let (lent, mut after) = (merging.clone(), before.clone());
    let got = lib.merge(&lent.file, &lent.grouping, &mut after);
    agree("merge", &expected, &got, || shown(merging));
    agree("merge: the lent file", &merging.file, &lent.file, || shown(merging));
    agree("merge: the lent grouping", &merging.grouping, &lent.grouping, || shown(merging));
    output_after("merge", &expected, &written, &before, &after, || shown(merging));
    tally.count(&expected);
    if matches!(expected, Ok(_) | Err(13)) {
        let model = read_model(&merging.file).expect("a model that was merged or refused by 13");
        tally.reach.merge(&model, &merging.grouping, expected.is_ok());
    }
    let length = expected.ok()?;
    after.truncate(length);
    Some(after)
}

/// A full model and its merged model, each with the sentence that is asked of both.
struct Both<'a> {
    merging: &'a Merging,
    full: Pair,
    small: Pair,
    letters: usize,
}

impl Both<'_> {
    /// The case for a report.
    fn told(&self) -> String {
        shown_text(&self.full.text) + &shown(self.merging)
    }

    /// What the second program answers on the full and on the merged model, if
    /// the sentence is not refused on the full one.
    fn answers(&self) -> Option<(Answer, Answer)> {
        let on_full = answer(&self.full.file, &self.full.text, Way::Fitting).ok()?;
        match answer(&self.small.file, &self.small.text, Way::Fitting) {
            Ok(on_small) => Some((on_full, on_small)),
            Err(number) => panic!("refused by {number} on the merged model\n{}", self.told()),
        }
    }

    /// The library's verdicts are those of the second program, and equal.
    fn verdicts<L: Questions>(&self, lib: &L, rng: &mut Rng, on_full: bool, on_small: bool) {
        let got = [&self.full, &self.small].map(|pair| {
            let room = pair.enough_room(rng);
            said(lib, rng, pair, room)
        });
        agree("the verdict on full or merged", &[Ok(on_full), Ok(on_small)], &got, || self.told());
        agree("the verdict on merged", &on_full, &on_small, || self.told());
    }

    /// A tuple of the full model by its number, and the tuple of its groups.
    fn tuples(&self, at: usize) -> (Vec<u8>, Vec<u8>) {
        let tuple = members(usize::from(self.merging.file[1]), self.letters, at);
        let grouped = tuple.iter().map(|&s| self.merging.grouping[usize::from(s)]).collect();
        (tuple, grouped)
    }

    /// The library's fractions of a path at a tuple and at the tuple of its groups.
    fn asked<L: Questions>(&self, lib: &L, rng: &mut Rng, path: usize, at: usize, expected: (u64, u64)) {
        let (tuple, grouped) = self.tuples(at);
        let got = [(&self.full, tuple), (&self.small, grouped)].map(|(pair, tuple)| {
            let room = pair.enough_room(rng);
            answered(lib, rng, &Asked { pair, tuple, path, room })
        });
        agree("a fraction on full or merged", &[Ok(expected); 2], &got, || self.told());
    }
}

/// A random sentence for a full model and its merged model.
fn both<'a>(rng: &mut Rng, merging: &'a Merging, small: &[u8]) -> Both<'a> {
    let full = read_model(&merging.file).expect("a model that was merged");
    let most = rng.pick(&[36, 36, 100, 256]);
    let fits = |&letters: &usize| (full.n as usize).pow(letters as u32) <= most;
    let letters = (1..=rng.between(1, 4)).rev().find(fits).unwrap_or(1);
    let size = rng.between(3, 16);
    let text = match rng.chance(1, 6) {
        true => naming::text(rng, &full, letters, naming::Kind::Any),
        false => question::fitting_sentence(rng, &full, letters, size).text(),
    };
    let pair = |file: &[u8]| Pair { file: file.to_vec(), text: text.clone() };
    Both { merging, full: pair(&merging.file), small: pair(small), letters }
}

/// Asks one random sentence of both models, if it is not refused.
fn keeps<L: Questions>(lib: &L, rng: &mut Rng, tally: &mut Tally, merging: &Merging, small: &[u8]) {
    let both = both(rng, merging, small);
    let Some((on_full, on_small)) = both.answers() else {
        return;
    };
    both.verdicts(lib, rng, on_full.holds, on_small.holds);
    tally.holds += u64::from(on_full.holds);
    tally.fails += u64::from(!on_full.holds);
    let all = on_full.paths.iter().map(|fractions| fractions.tops.len()).sum::<usize>();
    for (path, (fractions, merged)) in on_full.paths.iter().zip(&on_small.paths).enumerate() {
        for (at, &top) in fractions.tops.iter().enumerate() {
            let groups = usize::from(small[1]);
            let there = both.tuples(at).1.iter().fold(0, |number, &g| number * groups + usize::from(g));
            let expected = (top, fractions.bottom);
            agree("a fraction on merged", &expected, &(merged.tops[there], merged.bottom), || both.told());
            both.asked(lib, rng, path, at, expected);
            tally.numerators += 1;
            tally.reach.fraction(expected.0, expected.1);
        }
    }
    tally.reach.named.count(&read_sentence(&both.full.text).expect("a sentence that is answered"));
    tally.reach.letters[both.letters] += 1;
    tally.reach.every += u64::from(all > 0);
}
