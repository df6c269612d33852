//! Models of both versions, model files and records, right and wrong.

use super::Rng;
use crate::second::model::{
    block_check, blocks_of, mend, weight_place, write_model, Model, BLOCK, STATES, STATES_A_BLOCK,
};

/// An empty row.
pub const EMPTY: [u16; STATES] = [0; STATES];

/// The file of a model that keeps every rule.
pub fn file_of(model: &Model) -> Vec<u8> {
    let mut out = vec![0; 6 * BLOCK];
    let length = write_model(model, &mut out).expect("a model that keeps every rule");
    out.truncate(length);
    out
}

/// A model of version 0 with given N, A and D: random masks, and rows that add up to D.
pub fn model_with(rng: &mut Rng, n: u32, a: u32, d: u32) -> Model {
    let mut model = Model { n, a, d, ..Model::empty() };
    let states = n as usize;
    for s in 0..states {
        model.masks[s] = (rng.bits() & ((1 << a) - 1)) as u16;
        for (t, share) in rng.split(d, states).into_iter().enumerate() {
            model.weights[s][t] = share as u16;
        }
    }
    model
}

/// A model of either version with given N, A and D.
pub fn any_with(rng: &mut Rng, n: u32, a: u32, d: u32) -> Model {
    let mut model = model_with(rng, n, a, d);
    if rng.chance(1, 2) {
        model.version = 1;
        empty_rows(rng, &mut model);
    }
    model
}

/// Leaves no row empty, one, several or all. Beside several there are some that spell out what an empty row means.
fn empty_rows(rng: &mut Rng, model: &mut Model) {
    let n = model.n as usize;
    match rng.below(8) {
        0 => {}
        1..=3 => model.weights[rng.below(n)] = EMPTY,
        4..=6 => {
            for s in 0..n {
                match rng.below(6) {
                    0 | 1 => model.weights[s] = EMPTY,
                    2 => model.weights[s] = staying(model.d, s),
                    _ => {}
                }
            }
        }
        _ => model.weights = [EMPTY; STATES],
    }
}

/// The row of weight D to the state itself.
pub fn staying(d: u32, state: usize) -> [u16; STATES] {
    let mut row = EMPTY;
    row[state] = d as u16;
    row
}

/// Throws the row of a state anew, one unit of D after another.
pub fn throw(rng: &mut Rng, model: &mut Model, state: usize) {
    model.weights[state] = EMPTY;
    (0..model.d).for_each(|_| model.weights[state][rng.below(model.n as usize)] += 1);
}

/// Puts a model into version 1, with the same meaning: each row of weight D to the state itself is left empty or not.
pub fn unfill(rng: &mut Rng, model: &mut Model) {
    model.version = 1;
    for s in 0..model.n as usize {
        if model.weights[s] == staying(model.d, s) && rng.chance(2, 3) {
            model.weights[s] = EMPTY;
        }
    }
}

/// A model that keeps every rule, of any version, N, A and D, the ends often among them.
pub fn model(rng: &mut Rng) -> Model {
    let n = match rng.below(8) {
        0 => rng.pick(&[1, 6, 7, 8, 14, 15, 28, 29, 31, 32]),
        _ => rng.between(1, 32) as u32,
    };
    let a = match rng.below(4) {
        0 => rng.pick(&[1, 16]),
        _ => rng.between(1, 16) as u32,
    };
    let d = match rng.below(4) {
        0 => rng.pick(&[1, 2, 255, 256, 257, 65_534, 65_535]),
        1 => rng.between(1, 20) as u32,
        _ => rng.between(1, 65_535) as u32,
    };
    any_with(rng, n, a, d)
}

/// A file of any kind: right, damaged, or at a limit.
pub fn file(rng: &mut Rng) -> Vec<u8> {
    match rng.below(12) {
        0..=2 => file_of(&model(rng)),
        3 => changed(rng, 1, false),
        4 => changed(rng, 1, true),
        5 => several_changed(rng),
        6..=10 => at_a_limit(rng),
        _ => {
            let length = rng.below(3_601);
            let beyond = rng.pick(&[3_584, 4_096, 65_536, 66_048, 66_560]);
            let length = if rng.chance(1, 20) { beyond } else { length };
            of_length(rng, length)
        }
    }
}

/// A right file in which some bytes were changed; the checks mended or not.
pub fn changed(rng: &mut Rng, bytes: usize, mended: bool) -> Vec<u8> {
    let mut file = file_of(&model(rng));
    for _ in 0..bytes {
        // The head is small beside the rows, and has most of the fields.
        let end = if rng.chance(1, 2) { 80 } else { file.len() };
        let place = rng.below(end);
        file[place] ^= match rng.below(3) {
            0 => 1 << rng.below(8),
            _ => rng.between(1, 255) as u8,
        };
    }
    if mended {
        mend(&mut file);
    }
    file
}

/// A right file in which two to eight bytes were changed, the checks mended or not.
fn several_changed(rng: &mut Rng) -> Vec<u8> {
    let (bytes, mended) = (rng.between(2, 8), rng.chance(2, 3));
    changed(rng, bytes, mended)
}

/// Bytes of a given length: random, all zero, or from a right file.
pub fn of_length(rng: &mut Rng, length: usize) -> Vec<u8> {
    match rng.below(3) {
        0 => (0..length).map(|_| rng.byte()).collect(),
        1 => {
            let mut file = vec![0; length];
            if rng.chance(1, 2) {
                mend(&mut file);
            }
            file
        }
        _ => {
            let n = rng.pick(&[1, 7, 14, 21, 28, 32]);
            let mut file = file_of(&any_with(rng, n, 16, 9));
            file.resize(length, 0);
            if rng.chance(1, 2) {
                mend(&mut file);
            }
            file
        }
    }
}

/// How many kinds [`limit_file`] has.
pub const LIMITS: usize = 36;

/// A file at one side of one limit of the layout, its checks mended.
pub fn at_a_limit(rng: &mut Rng) -> Vec<u8> {
    // Rows that do not add up are few kinds of many, and have a refusal of their own.
    let kind = if rng.chance(1, 8) { rng.pick(&[11, 26, 29, 32]) } else { rng.below(LIMITS) };
    limit_file(rng, kind)
}

/// A file at one side of one limit of the layout, by kind (0 to 35).
pub fn limit_file(rng: &mut Rng, kind: usize) -> Vec<u8> {
    let model = model(rng);
    let mut file = file_of(&model);
    match kind {
        0..=10 => poke_head(rng, kind, &model, &mut file),
        11..=18 => poke_rows(rng, kind, &model, &mut file),
        19..=24 => poke_blocks(rng, kind, &mut file),
        25 => return with_another_check(rng),
        26 | 27 => return with_wrapped_row(rng, kind == 26),
        _ => return at_a_limit_of_versions(rng, kind),
    }
    file
}

/// One change of the head block, then the checks.
fn poke_head(rng: &mut Rng, kind: usize, model: &Model, file: &mut [u8]) {
    let n = model.n as usize;
    match kind {
        0 => file[0] = rng.pick(&[0, 1, 2, 3, 255]),
        1 => file[1] = rng.pick(&[0, 1, 32, 33, 34, 255, model.n as u8 + 1, model.n as u8 - 1]),
        2 => file[2] = rng.pick(&[0, 1, 16, 17, 255, model.a as u8 + 1, model.a as u8 - 1]),
        3 => file[3] = rng.pick(&[0, 0, 1, 1, 2, 3, 128, 255]),
        4 => file[4..8]
            .copy_from_slice(&rng.pick(&[0, 1, 65_535, 65_536, model.d + 1, model.d + 65_536]).to_le_bytes()),
        5 => file[rng.between(6, 7)] = rng.pick(&[0, 1, 128]),
        // The mask bits from A on, of states below N.
        6 => {
            let (state, any) = (rng.below(n), rng.below(16));
            let bit = rng.pick(&[(model.a as usize).min(15), 15, any]);
            file[8 + 2 * state + bit / 8] |= 1 << (bit % 8);
        }
        // The last label's bit: allowed.
        7 => {
            let (state, bit) = (rng.below(n), (model.a as usize) - 1);
            file[8 + 2 * state + bit / 8] ^= 1 << (bit % 8);
        }
        // The first byte after the masks, the last before the check, any between.
        8 => file[8 + 2 * n] = 1 << rng.below(8),
        9 => file[509] = 1,
        _ => file[rng.between(8 + 2 * n, 509)] = 1 << rng.below(8),
    }
    mend(file);
}

/// One change of the rows, then the checks.
fn poke_rows(rng: &mut Rng, kind: usize, model: &Model, file: &mut [u8]) {
    let n = model.n as usize;
    let state = rng.below(n);
    match kind {
        11 => file[weight_place(state, rng.below(n))] ^= 1 << rng.below(2),
        // Column N, and the last column.
        12 if n < 32 => file[weight_place(state, n) + rng.below(2)] = 1 << rng.below(8),
        13 if n < 32 => file[weight_place(state, 31) + 1] = 128,
        // The row of state N, where its block is there; any column.
        14 if !n.is_multiple_of(7) => file[weight_place(n, rng.below(32))] = 1,
        // Bytes 450..509 of a row block.
        15 => {
            let block = rng.between(1, blocks_of(n) - 1);
            file[BLOCK * block + rng.pick(&[450, 509, 470])] = 1;
        }
        // A weight moved to another column: the row still adds up.
        16 => moved(rng, file, state, n),
        17 => {
            let block = rng.between(1, blocks_of(n) - 1);
            file[BLOCK * block] = rng.pick(&[0, 1, 2, 3]);
        }
        18 => {
            let block = rng.between(1, blocks_of(n) - 1);
            file[BLOCK * block + 1] = rng.pick(&[0, block as u8, block as u8 + 1, block as u8 - 1]);
        }
        _ => {}
    }
    mend(file);
}

/// Moves one unit of weight, if there is one, between two columns of a state.
fn moved(rng: &mut Rng, file: &mut [u8], state: usize, n: usize) {
    let (from, to) = (weight_place(state, rng.below(n)), weight_place(state, rng.below(n)));
    if from != to && file[from] > 0 && file[to] < 255 {
        file[from] -= 1;
        file[to] += 1;
    }
}

/// One change of the blocks as such, then the checks.
fn poke_blocks(rng: &mut Rng, kind: usize, file: &mut Vec<u8>) {
    let blocks = file.len() / BLOCK;
    match kind {
        19 => file.truncate(file.len() - BLOCK),
        // One block more, well formed but for being there.
        20 => {
            file.resize(file.len() + BLOCK, 0);
            file[BLOCK * blocks] = 2;
            file[BLOCK * blocks + 1] = blocks as u8;
        }
        21 => file.truncate(file.len() - 1),
        22 => file.push(0),
        23 => {
            let (one, other) = (rng.below(blocks), rng.below(blocks));
            for i in 0..BLOCK {
                file.swap(BLOCK * one + i, BLOCK * other + i);
            }
        }
        _ => file.truncate(BLOCK),
    }
    mend(file);
}

/// A file whose head has the check c below 15; its bytes hold c + 65,521, which
/// is the same modulo 65,521 and yet wrong.
fn with_another_check(rng: &mut Rng) -> Vec<u8> {
    let mut file = file_of(&any_with(rng, 32, 16, 1));
    let mut check = u64::from(block_check(&file[..BLOCK]));
    while check >= 15 {
        let (place, byte) = (rng.between(8, 71), rng.byte());
        let change = 65_521 + u64::from(byte) - u64::from(file[place]);
        check = (check + (place as u64 + 1) * change) % 65_521;
        file[place] = byte;
    }
    file[510..512].copy_from_slice(&(check as u16 + 65_521).to_le_bytes());
    file
}

/// A file with a row that adds up to D + 65,536 or to 65,536: in two bytes it is right or empty, and yet it is wrong.
fn with_wrapped_row(rng: &mut Rng, right: bool) -> Vec<u8> {
    let (n, d) = (rng.between(2, 32), rng.between(1, 40_000) as u32);
    let mut model = any_with(rng, n as u32, 3, d);
    let state = rng.below(n);
    wrap_row(rng, &mut model, state, if right { d } else { 0 });
    spelled(&model)
}

/// Gives a state of a model with N from 2 on a row that adds up to 65,536 and `more`, which is up to 65,000.
fn wrap_row(rng: &mut Rng, model: &mut Model, state: usize, more: u32) {
    let n = (model.n as usize).min(32);
    let one = rng.below(n);
    let other = (one + rng.between(1, n - 1)) % n;
    model.weights[state] = EMPTY;
    model.weights[state][one] = 65_535;
    model.weights[state][other] = (more + 1) as u16;
}

/// The file that spells a record with N, A, D and masks in range; its version and its weights may be wrong. The rows are
/// those for which there is a place in the file.
pub fn spelled(model: &Model) -> Vec<u8> {
    let rows = std::array::from_fn(|s| if s < (model.n as usize) { staying(model.d, s) } else { EMPTY });
    let mut file = file_of(&Model { version: 0, weights: rows, ..model.clone() });
    file[3] = model.version as u8;
    for s in 0..(STATES_A_BLOCK * (file.len() / BLOCK - 1)).min(STATES) {
        for (t, weight) in model.weights[s].iter().enumerate() {
            file[weight_place(s, t)..][..2].copy_from_slice(&weight.to_le_bytes());
        }
    }
    mend(&mut file);
    file
}

/// A file at one side of a limit of the two versions (28 to 35): an empty row and nothing but empty rows in both versions,
/// and a row of version 1 that is neither empty nor right.
fn at_a_limit_of_versions(rng: &mut Rng, kind: usize) -> Vec<u8> {
    let mut model = model(rng);
    let state = rng.below(model.n as usize);
    model = Model { version: 1, ..model.filled() };
    match kind {
        28 => model.weights[state] = EMPTY,
        29 => (model.version, model.weights[state]) = (0, EMPTY),
        30 => model.weights = [EMPTY; STATES],
        31 => (model.version, model.weights) = (0, [EMPTY; STATES]),
        32 => drop_weights(rng, &mut model, state),
        // With D = 1 the first of these is empty and the second is right.
        33 => model.weights[state] = staying(model.d - 1, state),
        34 => model.weights[state] = staying(1, state),
        _ => {
            drop_weights(rng, &mut model, state);
            model.weights[rng.below(model.n as usize)] = EMPTY;
        }
    }
    spelled(&model)
}

/// Drops some of a row's weights that are not zero, and keeps one.
fn drop_weights(rng: &mut Rng, model: &mut Model, state: usize) {
    let row = &mut model.weights[state];
    let mut places: Vec<usize> = (0..STATES).filter(|&t| row[t] > 0).collect();
    rng.shuffle(&mut places);
    let dropped = rng.between(1, places.len().max(2) - 1);
    places.iter().skip(1).take(dropped).for_each(|&t| row[t] = 0);
}

/// A record for the writer: right, or with one to three wrong fields.
pub fn record(rng: &mut Rng) -> Model {
    let mut model = model(rng);
    let wrongs = rng.pick(&[0, 0, 1, 1, 1, 1, 2, 3]);
    for _ in 0..wrongs {
        spoil(rng, &mut model);
    }
    model
}

/// Changes one field of a record, mostly for the worse.
fn spoil(rng: &mut Rng, model: &mut Model) {
    let n = (model.n as usize).clamp(1, 32);
    let (state, any) = (rng.below(n), rng.below(16));
    match rng.below(16) {
        // 256 and more end in a byte that could be right.
        0 => model.n = rng.pick(&[0, 33, 34, 64, 255, model.n.wrapping_add(256), 258, u32::MAX]),
        1 => model.n = rng.pick(&[model.n.wrapping_add(1), model.n.wrapping_sub(1), 1, 32]),
        2 => model.a = rng.pick(&[0, 17, 32, 255, model.a.wrapping_add(256), 257, u32::MAX]),
        3 => model.a = rng.pick(&[model.a.wrapping_add(1), model.a.wrapping_sub(1), 1, 16]),
        4 => model.d = rng.pick(&[0, 65_536, 65_537, 131_072, u32::MAX]),
        5 => {
            model.d =
                rng.pick(&[model.d.wrapping_add(1), model.d.wrapping_sub(1), model.d.wrapping_add(65_536)])
        }
        6 => model.masks[state] ^= 1 << rng.pick(&[(model.a as usize) % 16, 15, any]),
        7 => model.masks[rng.pick(&[n % 32, 31])] |= 1 << rng.below(16),
        8 => model.weights[rng.below(32)][rng.pick(&[n % 32, 31])] = rng.pick(&[1, 256, 65_535]),
        9 => model.weights[rng.pick(&[n % 32, 31])][rng.below(32)] = rng.pick(&[1, 256, 65_535]),
        10 => {
            let weight = &mut model.weights[state][rng.below(n)];
            *weight = rng.pick(&[weight.wrapping_add(1), weight.wrapping_sub(1), 65_535, 0]);
        }
        11 => model.version = rng.pick(&[0, 1, 2, 3, 255]),
        12 => model.version = rng.pick(&[256, 257, 65_536, 65_537, 1 << 24, 1 << 31, u32::MAX]),
        13 => model.weights[state] = EMPTY,
        14 => drop_weights(rng, model, state),
        _ if n > 1 && model.d < 65_000 => {
            let more = rng.pick(&[model.d, 0]);
            wrap_row(rng, model, state, more);
        }
        _ => model.weights[state][0] ^= 1,
    }
}

#[cfg(test)]
mod tests {
    use super::*;
    use crate::second::read_model;

    #[test]
    fn models_of_every_n_keep_the_rules() {
        let mut rng = Rng::new(1);
        for n in 1..=32 {
            for a in 1..=16 {
                for d in [1, 2, 7, 65_535] {
                    let model = any_with(&mut rng, n, a, d);
                    assert_eq!(spelled(&model), file_of(&model));
                    assert_eq!(read_model(&file_of(&model)), Ok(model));
                }
            }
        }
    }

    #[test]
    fn the_special_files_are_refused_as_meant() {
        let mut rng = Rng::new(2);
        for _ in 0..20 {
            assert_eq!(read_model(&limit_file(&mut rng, 25)), Err(3));
            assert_eq!(read_model(&limit_file(&mut rng, 26)), Err(5));
            assert_eq!(read_model(&limit_file(&mut rng, 27)), Err(5));
            assert_eq!(read_model(&limit_file(&mut rng, 28)).err(), None);
            assert_eq!(read_model(&limit_file(&mut rng, 29)), Err(5));
            assert_eq!(read_model(&limit_file(&mut rng, 30)).err(), None);
            assert_eq!(read_model(&limit_file(&mut rng, 31)), Err(5));
            assert_eq!(read_model(&limit_file(&mut rng, 16)).err(), None);
            assert_eq!(read_model(&limit_file(&mut rng, 24)), Err(4));
        }
    }

    #[test]
    fn rows_partly_dropped_are_mostly_refused() {
        let mut rng = Rng::new(3);
        for kind in 32..LIMITS {
            let refused = |_: &usize| read_model(&limit_file(&mut rng, kind)) == Err(5);
            let count = (0..200).filter(refused).count();
            assert!(count >= 100, "kind {kind}: {count} of 200");
        }
    }

    #[test]
    fn leaving_rows_empty_keeps_the_meaning() {
        let mut rng = Rng::new(4);
        let mut left_out = 0;
        for _ in 0..200 {
            let full = Model { version: 1, ..any_with(&mut rng, 5, 2, 3).filled() };
            let mut model = Model { version: 0, ..full.clone() };
            unfill(&mut rng, &mut model);
            assert_eq!(model.filled(), full);
            left_out += usize::from(model != full);
        }
        assert!(left_out >= 50, "{left_out} of 200");
    }
}
