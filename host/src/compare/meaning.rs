//! Verdicts and numerators.

use super::areas::WorkArea;
use super::{agree, shown_file, shown_text, Questions, Second, Tally};
use crate::inputs::extreme::{self, Kind};
use crate::inputs::question::{self, Pair};
use crate::inputs::Rng;
use crate::second::meaning::{answer, Answer, Way};
use crate::second::{read_model, read_sentence};

/// The rows of verdict.
const ROWS: [usize; 11] = [1, 2, 3, 4, 5, 6, 7, 8, 9, 10, 11];
/// The rows of numerator.
pub(super) const NUMERATOR_ROWS: [usize; 12] = [1, 2, 3, 4, 5, 6, 7, 8, 9, 10, 11, 15];
/// About how many products the calls that ask a random pair at every tuple may take together.
const PRODUCTS: usize = 600_000;
/// The same, where the pair is an extreme one.
const MANY_PRODUCTS: usize = 3_000_000;

/// Compares verdicts on `cases` random pairs and work areas of every length
/// about the right one.
pub fn compare_verdict<L: Questions>(lib: &L, cases: usize, seed: u64) -> Tally {
    let mut rng = Rng::new(seed);
    let mut tally = Tally::new("verdict");
    for _ in 0..cases {
        any_verdict(lib, &mut rng, &mut tally);
    }
    tally.require(&ROWS);
    assert!(tally.holds > 0 && tally.fails > 0, "{tally}: one verdict was never given");
    tally.reach.require_versions(1);
    tally
}

/// The verdict of one random pair, with a work area of any length.
pub(super) fn any_verdict<L: Questions>(lib: &L, rng: &mut Rng, tally: &mut Tally) {
    let pair = question::pair(rng);
    let room = pair.any_room(rng);
    verdict_case(lib, rng, tally, &pair, room);
}

/// A pair for a report.
pub(super) fn shown(pair: &Pair) -> String {
    shown_text(&pair.text) + &shown_file(&pair.file)
}

/// Checks that a pair that was lent is as it was.
fn inputs_after(what: &str, pair: &Pair, lent: &Pair) {
    agree(&format!("{what}: the lent file"), &pair.file, &lent.file, || shown(pair));
    agree(&format!("{what}: the lent text"), &pair.text, &lent.text, || shown(pair));
}

/// What a library answers to one call of verdict, everything that is lent being as that answer should leave it.
pub(super) fn said<L: Questions>(lib: &L, rng: &mut Rng, pair: &Pair, room: usize) -> Result<bool, u8> {
    let (mut area, lent) = (WorkArea::of(rng, room), pair.clone());
    let got = lib.verdict(&lent.file, &lent.text, area.lent());
    area.check("verdict", pair, &got, || shown(pair));
    inputs_after("verdict", pair, &lent);
    got
}

/// One verdict, with everything that is lent.
pub(super) fn verdict_case<L: Questions>(
    lib: &L,
    rng: &mut Rng,
    tally: &mut Tally,
    pair: &Pair,
    room: usize,
) {
    let expected = said(&Second, rng, pair, room);
    verdict_agrees(lib, rng, tally, (pair, room), expected);
}

/// One verdict that is known, with everything that is lent.
pub(super) fn verdict_agrees<L: Questions>(
    lib: &L,
    rng: &mut Rng,
    tally: &mut Tally,
    (pair, room): (&Pair, usize),
    expected: Result<bool, u8>,
) {
    let got = said(lib, rng, pair, room);
    agree("verdict", &expected, &got, || format!("  work area of {room}\n{}", shown(pair)));
    tally.count(&expected);
    tally.holds += u64::from(expected == Ok(true));
    tally.fails += u64::from(expected == Ok(false));
    if expected.is_ok() {
        tally.reach.count(pair);
    }
}

/// Compares numerators on `cases` random pairs: every path at every tuple where
/// that is cheap and a sample elsewhere, and one call with any tuple, path
/// number and work area.
pub fn compare_numerator<L: Questions>(lib: &L, cases: usize, seed: u64) -> Tally {
    let mut rng = Rng::new(seed);
    let mut tally = Tally::new("numerator");
    for _ in 0..cases {
        any_numerator(lib, &mut rng, &mut tally);
    }
    tally.require(&NUMERATOR_ROWS);
    assert!(tally.reach.every > cases as u64 / 4, "{tally}: few pairs were asked at every tuple");
    tally.reach.require_versions(1);
    tally
}

/// The numerators of one random pair.
pub(super) fn any_numerator<L: Questions>(lib: &L, rng: &mut Rng, tally: &mut Tally) {
    let pair = question::pair(rng);
    let ((tuple, path), room) = (any_place(rng, &pair), pair.any_room(rng));
    numerator_case(lib, rng, tally, &Asked { pair: &pair, tuple, path, room });
    if let Ok(found) = answer(&pair.file, &pair.text, Way::Fitting) {
        tally.reach.model(&read_model(&pair.file).expect("a pair that is answered"));
        tally.reach.named.count(&read_sentence(&pair.text).expect("a pair that is answered"));
        ask_all(lib, rng, tally, &Found { pair: &pair, found: &found }, PRODUCTS);
    }
}

/// Compares the verdicts of `cases` pairs of an extreme kind, and of those that
/// are answered every numerator, or a sample where these are too many.
pub fn compare_extreme<L: Questions>(lib: &L, kind: Kind, cases: usize, seed: u64) -> Tally {
    let mut rng = Rng::new(seed);
    let mut tally = Tally::new("extreme verdict");
    let mut numerators = Tally::new("extreme numerator");
    for _ in 0..cases {
        let pair = extreme::pair(&mut rng, kind);
        let room = pair.enough_room(&mut rng);
        verdict_case(lib, &mut rng, &mut tally, &pair, room);
        if let Ok(found) = answer(&pair.file, &pair.text, Way::Fitting) {
            ask_all(lib, &mut rng, &mut numerators, &Found { pair: &pair, found: &found }, MANY_PRODUCTS);
        }
    }
    tally.reach.add(&numerators.reach);
    tally.numerators = numerators.answered;
    tally
}

/// Compares every numerator of every path at every tuple of pairs of about 1,024 tuples and few steps.
pub fn compare_full<L: Questions>(lib: &L, cases: usize, seed: u64) -> Tally {
    let mut rng = Rng::new(seed);
    let mut tally = Tally::new("numerators of 1,024 tuples");
    for case in 0..cases {
        let pair = extreme::few_steps(&mut rng, case);
        let found = answer(&pair.file, &pair.text, Way::Table).expect("a pair that is answered");
        tally.reach.model(&read_model(&pair.file).expect("a pair that is answered"));
        ask_all(lib, &mut rng, &mut tally, &Found { pair: &pair, found: &found }, usize::MAX);
    }
    tally
}

/// One call of numerator.
pub(super) struct Asked<'a> {
    pub(super) pair: &'a Pair,
    pub(super) tuple: Vec<u8>,
    pub(super) path: usize,
    pub(super) room: usize,
}

impl Asked<'_> {
    /// The call for a report.
    fn shown(&self) -> String {
        let Asked { pair, tuple, path, room } = self;
        format!("  tuple {tuple:?}, path {path}, work area of {room}\n{}", shown(pair))
    }
}

/// What a library answers to one call of numerator, everything that is lent being as that answer should leave it.
pub(super) fn answered<L: Questions>(lib: &L, rng: &mut Rng, asked: &Asked) -> Result<(u64, u64), u8> {
    let Asked { pair, tuple, path, room } = asked;
    let (mut area, lent, lent_tuple) = (WorkArea::of(rng, *room), (*pair).clone(), tuple.clone());
    let got = lib.numerator(&lent.file, &lent.text, &lent_tuple, *path, area.lent());
    agree("numerator: the lent tuple", tuple, &lent_tuple, || asked.shown());
    area.check("numerator", pair, &got, || asked.shown());
    inputs_after("numerator", pair, &lent);
    got
}

/// One numerator, with everything that is lent.
fn numerator_case<L: Questions>(lib: &L, rng: &mut Rng, tally: &mut Tally, asked: &Asked) {
    let expected = answered(&Second, rng, asked);
    numerator_agrees(lib, rng, tally, asked, expected);
}

/// One numerator that is known, with everything that is lent.
pub(super) fn numerator_agrees<L: Questions>(
    lib: &L,
    rng: &mut Rng,
    tally: &mut Tally,
    asked: &Asked,
    expected: Result<(u64, u64), u8>,
) {
    let got = answered(lib, rng, asked);
    agree("numerator", &expected, &got, || asked.shown());
    tally.count(&expected);
    if let Ok((top, bottom)) = expected {
        tally.reach.fraction(top, bottom);
    }
}

/// Any tuple and path number for a pair, most of them wrong in one thing.
pub(super) fn any_place(rng: &mut Rng, pair: &Pair) -> (Vec<u8>, usize) {
    let states = read_model(&pair.file).map_or(3, |model| model.n as usize);
    let letters = read_sentence(&pair.text).map_or(2, |sentence| sentence.letters);
    let mut tuple: Vec<u8> = (0..letters).map(|_| rng.below(states) as u8).collect();
    let mut path = rng.pick(&[0, 0, 0, 1, 2]);
    match rng.below(6) {
        0 => tuple.resize(letters + rng.pick(&[1, 1, 2, 256]), 0),
        1 => tuple.truncate(rng.below(letters)),
        2 => tuple[rng.below(letters)] = rng.pick(&[states as u8, states as u8, 32, 255]),
        3 => path = rng.pick(&[1, 5, 64, 65, 256, 1 << 32, usize::MAX]),
        _ => {}
    }
    (tuple, path)
}

/// A pair that is answered, with what the second program answers.
pub(super) struct Found<'a> {
    pub(super) pair: &'a Pair,
    pub(super) found: &'a Answer,
}

impl Found<'_> {
    /// The tuple of a number, variable 1 counting most.
    pub(super) fn tuple(&self, at: usize) -> Vec<u8> {
        let states = usize::from(self.pair.file[1]);
        let letters = self.pair.text.iter().take_while(|&&byte| byte != b'.').count();
        members(states, letters, at)
    }

    /// About how many products one numerator takes. Where the tuples are few, the second program lists runs and makes
    /// all joint weights for each path.
    pub(super) fn cost(&self) -> usize {
        let model = read_model(&self.pair.file).expect("a pair that is answered");
        let sentence = read_sentence(&self.pair.text).expect("a pair that is answered");
        let tuples = self.found.paths.first().map_or(0, |path| path.tops.len());
        let joint = if tuples <= 45 { 8 * self.found.paths.len() * tuples * tuples } else { 0 };
        (question::cost(&model, &sentence) + joint).max(1)
    }
}

/// Every path at every tuple if that takes at most so many products, a sample otherwise.
pub(super) fn ask_all<L: Questions>(
    lib: &L,
    rng: &mut Rng,
    tally: &mut Tally,
    pair: &Found,
    products: usize,
) {
    let paths = &pair.found.paths;
    let tuples = paths.first().map_or(0, |fractions| fractions.tops.len());
    let all = paths.len() * tuples;
    let calls = if all > 0 { all.min((products / pair.cost()).max(2)) } else { 0 };
    for call in 0..calls {
        let place = if calls == all { call } else { rng.below(all) };
        let (path, at) = (place / tuples, place % tuples);
        let room = pair.pair.enough_room(rng);
        let asked = Asked { pair: pair.pair, tuple: pair.tuple(at), path, room };
        numerator_agrees(lib, rng, tally, &asked, Ok((paths[path].tops[at], paths[path].bottom)));
    }
    if all > 0 && calls == all {
        tally.reach.every += 1;
        tally.reach.every_full += u64::from(tuples == 1_024);
    }
    tally.reach.below_zero += u64::from(pair.found.below_zero);
}

/// The first path at every tuple of a pair under one letter, answered or refused.
pub(super) fn at_each_state<L: Questions>(lib: &L, rng: &mut Rng, tally: &mut Tally, pair: &Pair) {
    for state in 0..pair.file[1] {
        let asked = Asked { pair, tuple: vec![state], path: 0, room: pair.enough_room(rng) };
        numerator_case(lib, rng, tally, &asked);
    }
}

/// Row 15 on both sides: for `cases` pairs that are answered, tuples of every
/// length about n, members about N at every place, path numbers about the count.
pub fn compare_row_15<L: Questions>(lib: &L, cases: usize, seed: u64) -> Tally {
    let mut rng = Rng::new(seed);
    let mut tally = Tally::new("row 15");
    for _ in 0..cases {
        let pair = question::fitting(&mut rng);
        let Ok(found) = answer(&pair.file, &pair.text, Way::Fitting) else { continue };
        let pair = Found { pair: &pair, found: &found };
        for (tuple, path, right) in edges(&mut rng, &pair) {
            // Wrong ones are refused by 15 in an area of any length.
            let room = if right { pair.pair.enough_room(&mut rng) } else { pair.pair.any_room(&mut rng) };
            let asked = Asked { pair: pair.pair, tuple, path, room };
            let expected = answered(&Second, &mut rng, &asked);
            let refused = if right { None } else { Some(15) };
            agree("row 15 of second", &refused, &expected.err(), || shown(pair.pair));
            numerator_agrees(lib, &mut rng, &mut tally, &asked, expected);
        }
    }
    tally.require(&[15]);
    tally
}

/// Tuples and path numbers on both sides of row 15, and whether each is right.
fn edges(rng: &mut Rng, pair: &Found) -> Vec<(Vec<u8>, usize, bool)> {
    let n_states = pair.pair.file[1];
    let letters = pair.tuple(0).len();
    let count = pair.found.paths.len();
    let path = count.saturating_sub(1);
    let any: Vec<u8> = (0..letters).map(|_| rng.below(usize::from(n_states)) as u8).collect();
    let mut list = Vec::new();
    for length in [letters - 1, letters, letters + 1, 0, 2 * letters, letters + 256] {
        let tuple = any.iter().cycle().take(length).copied().collect();
        list.push((tuple, path, length == letters && count > 0));
    }
    for place in 0..letters {
        for member in [n_states - 1, n_states, n_states + 1, 255] {
            let mut tuple = any.clone();
            tuple[place] = member;
            list.push((tuple, path, member < n_states && count > 0));
        }
    }
    // The last of these are right but for the bits that a smaller number would not have.
    for path in [0, path, count, count + 1, 64, usize::MAX, path + 256, path + (1 << 16), path + (1 << 32)] {
        list.push((any.clone(), path, path < count));
    }
    list
}

/// The members of the tuple with a number, for so many states and letters.
pub(super) fn members(states: usize, letters: usize, mut at: usize) -> Vec<u8> {
    let mut tuple = vec![0; letters];
    for member in tuple.iter_mut().rev() {
        *member = (at % states) as u8;
        at /= states;
    }
    tuple
}
