//! Groupings: models of both versions made to fit a grouping, and groupings that fit no longer.

use super::model::{self, any_with, file_of, model_with, staying, EMPTY};
use super::Rng;
use crate::second::model::blocks_of;
use crate::second::Model;

/// The input of a merge: a file, a grouping, and the length of the output.
#[derive(Clone, Debug)]
pub struct Merging {
    /// The model file.
    pub file: Vec<u8>,
    /// One byte a state.
    pub grouping: Vec<u8>,
    /// The length of the lent output.
    pub room: usize,
}

/// A model of either version and a grouping that it was made for: a small model, each of whose
/// states became a group, its weights split among the members. At most so many states.
pub fn planted(rng: &mut Rng, most: usize) -> (Model, Vec<u8>) {
    let states = rng.between(1, most);
    let groups = rng.between(1, states);
    let (a, any) = (rng.between(1, 4) as u32, rng.between(1, 65_535) as u32);
    let d = rng.pick(&[1, 2, 3, 4, 6, 10, 100, 65_535, any]);
    let mut small = model_with(rng, groups as u32, a, d);
    if rng.chance(1, 2) {
        small.version = 1;
        halt(rng, &mut small);
    }
    let mut grouping: Vec<u8> =
        (0..states).map(|s| if s < groups { s } else { rng.below(groups) } as u8).collect();
    rng.shuffle(&mut grouping);
    let mut model = Model { n: states as u32, a, d, ..Model::empty() };
    for s in 0..states {
        let g = usize::from(grouping[s]);
        model.masks[s] = small.masks[g];
        for h in 0..groups {
            let members: Vec<usize> = (0..states).filter(|&t| usize::from(grouping[t]) == h).collect();
            let shares = rng.split(u32::from(small.weights[g][h]), members.len());
            for (&t, share) in members.iter().zip(shares) {
                model.weights[s][t] = share as u16;
            }
        }
    }
    if small.version == 1 {
        leave_out(rng, &mut model, &small, &grouping);
    }
    (model, grouping)
}

/// Makes no state of a model halt, one, several or all: weight D to the state itself.
fn halt(rng: &mut Rng, model: &mut Model) {
    let n = model.n as usize;
    let (one, part) = (rng.below(n), rng.pick(&[0, 1, 1, 2, 2, 4]));
    for s in 0..n {
        if rng.chance(part, 4) || (part == 1 && s == one) {
            model.weights[s] = staying(model.d, s);
        }
    }
}

/// Puts a model made for a grouping into version 1. Where the small model's state halts, the members may stay in their
/// group in any way: some rows are left empty, some become weight D to the state itself, some stay split.
fn leave_out(rng: &mut Rng, model: &mut Model, small: &Model, grouping: &[u8]) {
    model.version = 1;
    let part = rng.pick(&[1, 2, 3, 5, 5]);
    for (s, group) in grouping.iter().map(|&group| usize::from(group)).enumerate() {
        if small.weights[group] != staying(small.d, group) {
            continue;
        }
        if rng.chance(part, 5) {
            model.weights[s] = EMPTY;
        } else if rng.chance(1, 3) {
            model.weights[s] = staying(model.d, s);
        }
    }
}

/// The input of a merge of any kind, half of them accepted.
pub fn merging(rng: &mut Rng) -> Merging {
    let most = rng.pick(&[3, 5, 8, 16, 32]);
    let (mut model, mut grouping) = planted(rng, most);
    let mut file = None;
    match rng.below(21) {
        0..=6 => {}
        7 => grouping = (0..model.n as u8).collect(),
        8 => rng.shuffle(&mut grouping),
        9 | 10 => one_off(rng, &mut grouping),
        11 | 12 => weight_off(rng, &mut model),
        13 => mask_off(rng, &mut model),
        14 => wrong_length(rng, &mut grouping),
        15 => wrong_numbers(rng, &mut grouping),
        16 => {
            model.masks = std::array::from_fn(|s| if s < (model.n as usize) { model.masks[0] } else { 0 });
            grouping.fill(0);
        }
        17 => file = Some(model::file(rng)),
        18 => grouping = (0..rng.below(40)).map(|_| rng.below(4) as u8).collect(),
        19 => row_off(rng, &mut model),
        _ => {
            let n = rng.between(1, 4);
            model = any_with(rng, n as u32, 1, 1);
            grouping = (0..n).map(|_| rng.below(n) as u8).collect();
        }
    }
    let room = room(rng, &grouping);
    Merging { file: file.unwrap_or_else(|| file_of(&model)), grouping, room }
}

/// A merge that changes nothing but empty rows: a model of either version and the grouping 0, 1, 2, .., with just the
/// room for the filled file.
pub fn identity(rng: &mut Rng) -> Merging {
    let most = rng.pick(&[3, 5, 8, 8, 32]);
    let (n, a, any) = (rng.between(1, most), rng.between(1, 4) as u32, rng.between(1, 65_535) as u32);
    let d = rng.pick(&[1, 2, 3, 4, 6, 10, 100, 65_535, any]);
    let model = any_with(rng, n as u32, a, d);
    let file = file_of(&model);
    Merging { room: file.len(), file, grouping: (0..n as u8).collect() }
}

/// A length of the output near what a grouping calls for.
fn room(rng: &mut Rng, grouping: &[u8]) -> usize {
    let groups = grouping.iter().max().map_or(0, |&last| usize::from(last) + 1);
    let exact = 512 * blocks_of(groups.min(32));
    match rng.below(10) {
        0 => rng.pick(&[0, 511, 512, exact - 1, exact - 512]),
        1 | 2 => exact + rng.between(1, 600),
        _ => exact,
    }
}

/// One state in another group.
fn one_off(rng: &mut Rng, grouping: &mut [u8]) {
    let groups = usize::from(*grouping.iter().max().expect("a state")) + 1;
    let state = rng.below(grouping.len());
    grouping[state] = ((usize::from(grouping[state]) + rng.below(groups)) % groups) as u8;
}

/// One unit of weight from one state goes to another target.
fn weight_off(rng: &mut Rng, model: &mut Model) {
    let n = model.n as usize;
    let (s, to) = (rng.below(n), rng.below(n));
    let from = (0..n).map(|i| (i + to) % n).find(|&t| t != to && model.weights[s][t] > 0);
    if let Some(from) = from {
        model.weights[s][from] -= 1;
        model.weights[s][to] += 1;
    }
}

/// The row of one state is left empty. Members of its group that leave the group are then not alike with it.
fn row_off(rng: &mut Rng, model: &mut Model) {
    model.version = 1;
    model.weights[rng.below(model.n as usize)] = EMPTY;
}

/// One label of one state changes.
fn mask_off(rng: &mut Rng, model: &mut Model) {
    let state = rng.below(model.n as usize);
    model.masks[state] ^= 1 << rng.below(model.a as usize);
}

/// A grouping with a byte too many or too few, or none.
fn wrong_length(rng: &mut Rng, grouping: &mut Vec<u8>) {
    match rng.below(5) {
        0 => grouping.push(0),
        1 => {
            grouping.pop();
        }
        2 => grouping.clear(),
        // As many more as a byte can count.
        3 => grouping.resize(grouping.len() + 256, 0),
        _ => grouping.extend_from_within(..),
    }
}

/// A grouping in which some number from 0 to the greatest is not used.
fn wrong_numbers(rng: &mut Rng, grouping: &mut [u8]) {
    let last = *grouping.iter().max().expect("a state");
    let state = rng.below(grouping.len());
    match rng.below(4) {
        0 => grouping.iter_mut().for_each(|group| *group += 1),
        1 => grouping.iter_mut().filter(|group| **group == last).for_each(|group| *group += 1),
        2 => grouping[state] = rng.pick(&[32, 33, 128, 255]),
        _ => grouping[state] = last + 1,
    }
}

#[cfg(test)]
mod tests {
    use super::*;
    use crate::second::merge;

    #[test]
    fn planted_groupings_are_accepted() {
        let mut rng = Rng::new(6);
        for _ in 0..2_000 {
            let (model, grouping) = planted(&mut rng, 32);
            assert!(merge(&file_of(&model), &grouping, &mut [0; 3_072]).is_ok());
        }
    }
}
