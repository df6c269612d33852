//! The model reader and the model writer.

use super::{agree, output, output_after, shown_file, Models, Tally};
use crate::inputs::{model, Rng};
use crate::second::model::{blocks_of, mend};
use crate::second::{self, Model};

/// Compares reading on every length 0..3,600, every limit of the layout, every
/// byte of a file changed, and `cases` random files; what is read is written
/// again and gives the same file.
pub fn compare_model_reader<L: Models>(lib: &L, cases: usize, seed: u64) -> Tally {
    let mut rng = Rng::new(seed);
    let mut tally = Tally::new("model reader");
    for length in 0..=3_600 {
        let file = model::of_length(&mut rng, length);
        reader_case(lib, &mut rng, &mut tally, &file);
    }
    for kind in (0..model::LIMITS).cycle().take(10 * model::LIMITS) {
        let file = model::limit_file(&mut rng, kind);
        reader_case(lib, &mut rng, &mut tally, &file);
    }
    each_byte_changed(lib, &mut rng, &mut tally);
    for _ in 0..cases {
        any_read(lib, &mut rng, &mut tally);
    }
    tally.require(&[2, 3, 4, 5]);
    tally.reach.require_versions(1);
    tally
}

/// One random file.
pub(super) fn any_read<L: Models>(lib: &L, rng: &mut Rng, tally: &mut Tally) {
    let file = model::file(rng);
    reader_case(lib, rng, tally, &file);
}

/// A file of three blocks of each version with each of its bytes changed in turn,
/// the checks as they were and mended. In version 1 two of its rows are empty.
fn each_byte_changed<L: Models>(lib: &L, rng: &mut Rng, tally: &mut Tally) {
    let full = model::model_with(rng, 8, 9, 300);
    let mut halting = Model { version: 1, ..full.clone() };
    halting.weights[2] = model::EMPTY;
    halting.weights[7] = model::EMPTY;
    for good in [full, halting].map(|model| model::file_of(&model)) {
        for place in 0..good.len() {
            let mut file = good.clone();
            file[place] ^= 1 << rng.below(8);
            reader_case(lib, rng, tally, &file);
            mend(&mut file);
            reader_case(lib, rng, tally, &file);
        }
    }
}

/// One file: read, and if accepted written again.
pub(super) fn reader_case<L: Models>(lib: &L, rng: &mut Rng, tally: &mut Tally, file: &[u8]) {
    let shown = || shown_file(file);
    let expected = second::read_model(file);
    let lent = file.to_vec();
    let got = lib.read_model(&lent);
    agree("read model", &expected, &got, shown);
    agree("read model: the lent file", &file, &lent.as_slice(), shown);
    tally.count(&expected);
    if let Ok(model) = got {
        tally.reach.model(&model);
        let before = output(rng, file.len() + 5);
        let mut after = before.clone();
        let answer = lib.write_model(&model, &mut after);
        agree("write what was read", &Ok(file.len()), &answer, shown);
        output_after("write what was read", &answer, file, &before, &after, shown);
    }
}

/// Compares writing on `cases` random records and outputs of every length about
/// the right one; what is written is read again and gives the same model.
pub fn compare_model_writer<L: Models>(lib: &L, cases: usize, seed: u64) -> Tally {
    let mut rng = Rng::new(seed);
    let mut tally = Tally::new("model writer");
    for _ in 0..cases {
        any_write(lib, &mut rng, &mut tally);
    }
    tally.require(&[4, 5, 14]);
    tally.reach.require_versions(1);
    tally
}

/// One random record.
pub(super) fn any_write<L: Models>(lib: &L, rng: &mut Rng, tally: &mut Tally) {
    let record = model::record(rng);
    let exact = 512 * blocks_of((record.n as usize).min(32));
    let length = match rng.below(8) {
        0 => rng.pick(&[0, 1, 511, 512, exact - 1, exact - 512]),
        1 => exact + rng.between(1, 1_000),
        _ => exact,
    };
    writer_case(lib, rng, tally, &record, length);
}

/// One record and the length of an output: written, and if accepted read again.
pub(super) fn writer_case<L: Models>(
    lib: &L,
    rng: &mut Rng,
    tally: &mut Tally,
    record: &Model,
    length: usize,
) {
    let shown = || format!("  record {record:?}\n");
    let before = output(rng, length);
    let mut written = before.clone();
    let expected = second::write_model(record, &mut written);
    let (lent, mut after) = (record.clone(), before.clone());
    let got = lib.write_model(&lent, &mut after);
    agree("write model", &expected, &got, shown);
    agree("write model: the lent record", record, &lent, shown);
    output_after("write model", &expected, &written, &before, &after, shown);
    tally.count(&expected);
    if let Ok(length) = got {
        tally.reach.model(record);
        agree("read what was written", &Ok(lent), &lib.read_model(&after[..length]), shown);
    }
}
