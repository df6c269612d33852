//! Room by the model (document 02, T-07): a call needs 8 × T numbers of work area, and asks for them after every other row.

use super::meaning::{any_place, numerator_agrees, shown, verdict_agrees, Asked, Found, NUMERATOR_ROWS};
use super::{agree, Questions, Tally};
use crate::inputs::model::file_of;
use crate::inputs::question::{self, Pair};
use crate::inputs::room::{self, Refused};
use crate::inputs::Rng;
use crate::second;
use crate::second::meaning::{answer, Fractions, Way, ENOUGH};

/// What a call gives in an area of a length, by what it gives in one that is long enough: 1 in the place of an answer exactly if
/// the area is shorter than 8 × T.
fn in_room<T>(long_enough: Result<T, u8>, pair: &Pair, room: usize) -> Result<T, u8> {
    match long_enough {
        Ok(_) if room < pair.room().expect("a pair that is answered") => Err(1),
        other => other,
    }
}

/// Both calls with work areas of every length of [`Pair::rooms`], on `cases` pairs of any kind.
pub fn compare_rooms<L: Questions>(lib: &L, cases: usize, seed: u64) -> Tally {
    let mut rng = Rng::new(seed);
    let mut tally = Tally::new("work areas");
    for _ in 0..cases {
        let pair = question::pair(&mut rng);
        let (tuple, path) = any_place(&mut rng, &pair);
        let holds = second::verdict(&pair.file, &pair.text, &mut [0; ENOUGH]);
        let fraction = second::numerator(&pair.file, &pair.text, &tuple, path, &mut [0; ENOUGH]);
        for room in pair.rooms() {
            verdict_agrees(lib, &mut rng, &mut tally, (&pair, room), in_room(holds, &pair, room));
            let asked = Asked { pair: &pair, tuple: tuple.clone(), path, room };
            numerator_agrees(lib, &mut rng, &mut tally, &asked, in_room(fraction, &pair, room));
        }
    }
    tally.require(&NUMERATOR_ROWS);
    tally
}

/// Both calls at every number of states and letters within 1,024 tuples, with work areas of just the length, of one number less
/// and of three more.
pub fn compare_every_room<L: Questions>(lib: &L, seed: u64) -> Tally {
    let mut rng = Rng::new(seed);
    let mut tally = Tally::new("every number of tuples");
    for (n, letters) in room::sizes() {
        for pair in room::questions(&mut rng, n, letters) {
            let needs = pair.room().expect("a pair that is answered");
            both_calls(lib, &mut rng, &mut tally, &pair, &[needs - 1, needs, needs + 3]);
        }
    }
    tally.require(&[1]);
    tally
}

/// Both calls on sentences of 64 nodes, with work areas of just the length and of one number less, at several numbers of tuples:
/// the deepest, those with even operands, and for each model `cases` random ones with even operands.
pub fn compare_just_room<L: Questions>(lib: &L, cases: usize, seed: u64) -> Tally {
    let mut rng = Rng::new(seed);
    let mut tally = Tally::new("64 nodes");
    for (n, letters) in room::SOME_SIZES {
        for model in room::spread(&mut rng, n, 3) {
            let any: Vec<_> = (0..cases).map(|_| room::even_text(&mut rng, &model, letters)).collect();
            for text in room::full_texts(letters).into_iter().chain(any) {
                let pair = Pair { file: file_of(&model), text };
                let needs = pair.room().expect("a pair that is answered");
                both_calls(lib, &mut rng, &mut tally, &pair, &[needs - 1, needs]);
            }
        }
    }
    tally.require(&[1]);
    tally
}

/// Both calls on a pair that is answered, with work areas of each length.
fn both_calls<L: Questions>(lib: &L, rng: &mut Rng, tally: &mut Tally, pair: &Pair, rooms: &[usize]) {
    let found = answer(&pair.file, &pair.text, Way::Fitting).unwrap_or_else(|number| {
        panic!("refused by {number}\n{}", shown(pair));
    });
    let question = Found { pair, found: &found };
    for &room in rooms {
        verdict_agrees(lib, rng, tally, (pair, room), in_room(Ok(found.holds), pair, room));
        for (path, at) in places(rng, &found.paths) {
            let fraction = (found.paths[path].tops[at], found.paths[path].bottom);
            let asked = Asked { pair, tuple: question.tuple(at), path, room };
            numerator_agrees(lib, rng, tally, &asked, in_room(Ok(fraction), pair, room));
        }
    }
}

/// The first path at the first tuple and at the last, and each path at any.
fn places(rng: &mut Rng, paths: &[Fractions]) -> Vec<(usize, usize)> {
    let Some(first) = paths.first() else { return Vec::new() };
    let tuples = first.tops.len();
    let mut list = vec![(0, 0), (0, tuples - 1)];
    list.extend((0..paths.len()).map(|path| (path, rng.below(tuples))));
    list
}

/// Row 1 is the last: calls that each other row refuses, with work areas on both sides of what the question would need, are
/// refused by that row in all of them.
pub fn compare_room_last<L: Questions>(lib: &L, seed: u64) -> Tally {
    let mut rng = Rng::new(seed);
    let mut tally = Tally::new("row 1 after every other");
    for (n, letters) in room::SOME_SIZES.into_iter().chain(room::BEYOND) {
        for refused in room::refused(&mut rng, n, letters) {
            refused_case(lib, &mut rng, &mut tally, &refused);
        }
    }
    tally
}

/// One call of numerator that is refused, and of verdict unless the row is 15, with work areas of each length.
fn refused_case<L: Questions>(lib: &L, rng: &mut Rng, tally: &mut Tally, refused: &Refused) {
    let Refused { number, pair, tuple, path, rooms } = refused;
    let of_second = second::numerator(&pair.file, &pair.text, tuple, *path, &mut [0; ENOUGH]).err();
    agree("the row of second", &Some(*number), &of_second, || shown(pair));
    for &room in rooms {
        if *number < 15 {
            verdict_agrees(lib, rng, tally, (pair, room), Err(*number));
        }
        let asked = Asked { pair, tuple: tuple.clone(), path: *path, room };
        numerator_agrees(lib, rng, tally, &asked, Err(*number));
    }
}

#[cfg(test)]
mod tests {
    use super::*;
    use crate::compare::Second;

    #[test]
    fn second_asks_for_just_the_room_and_last() {
        compare_rooms(&Second, 1_000, 141);
        compare_every_room(&Second, 142);
        compare_just_room(&Second, 2, 143);
        compare_room_last(&Second, 144);
    }
}
