//! The two versions of a model file (document 02, T-05): every limit on both sides, in files and in records, and empty
//! rows with the numbers that follow from the document's words.

use super::meaning::{at_each_state, verdict_case};
use super::merging::merge_case;
use super::models::{reader_case, writer_case};
use super::{agree, shown_file, Library, Merges, Questions, Tally};
use crate::inputs::grouping::Merging;
use crate::inputs::model::{file_of, spelled};
use crate::inputs::question::Pair;
use crate::inputs::Rng;
use crate::second::meaning::ENOUGH;
use crate::second::model::examples::{halted, m2};
use crate::second::{self, Model};

/// The rows of three states.
type Rows = [[u16; 3]; 3];

/// M2's rows.
const WRITTEN: Rows = [[2, 1, 1], [0, 3, 1], [0, 0, 4]];
/// No row that is not empty.
const ALL_EMPTY: Rows = [[0; 3]; 3];

/// M2's rows with another one for the last state.
const fn last(row: [u16; 3]) -> Rows {
    [WRITTEN[0], WRITTEN[1], row]
}

/// Rows of a model with N = 3 and D = 4, and what refuses them in version 0, in version 1 and in every other.
const LIMITS: [(&str, Rows, [Option<u8>; 3]); 15] = [
    ("rows that add up", WRITTEN, [None, None, Some(4)]),
    ("the first row empty", [[0; 3], WRITTEN[1], WRITTEN[2]], [Some(5), None, Some(4)]),
    ("a row between empty", [WRITTEN[0], [0; 3], WRITTEN[2]], [Some(5), None, Some(4)]),
    ("the last row empty", last([0; 3]), [Some(5), None, Some(4)]),
    ("two rows empty", [[0; 3], [0; 3], WRITTEN[2]], [Some(5), None, Some(4)]),
    ("all rows empty", ALL_EMPTY, [Some(5), None, Some(4)]),
    ("one weight, 1 less than D", last([0, 0, 3]), [Some(5), Some(5), Some(4)]),
    ("one weight, 1 more than D", last([0, 0, 5]), [Some(5), Some(5), Some(4)]),
    ("one weight of 1", last([0, 0, 1]), [Some(5), Some(5), Some(4)]),
    ("one weight missing", [[2, 0, 1], WRITTEN[1], WRITTEN[2]], [Some(5), Some(5), Some(4)]),
    ("all weights but one missing", [[2, 0, 0], WRITTEN[1], WRITTEN[2]], [Some(5), Some(5), Some(4)]),
    ("an empty row before a wrong one", [[0; 3], [0, 3, 0], WRITTEN[2]], [Some(5), Some(5), Some(4)]),
    ("an empty row after a wrong one", [WRITTEN[0], [0, 3, 0], [0; 3]], [Some(5), Some(5), Some(4)]),
    ("65,536 in all, empty in two bytes", last([65_535, 1, 0]), [Some(5), Some(5), Some(4)]),
    ("D + 65,536 in all, right in two bytes", last([65_535, 5, 0]), [Some(5), Some(5), Some(4)]),
];

/// Versions above 1 that stand in a byte.
const IN_A_BYTE: [u32; 6] = [2, 3, 127, 128, 254, 255];
/// Versions above 1 that only a record can have; some end in a byte or in two bytes that could be right.
const IN_A_RECORD: [u32; 8] = [256, 257, 65_535, 65_536, 65_537, 1 << 24, 1 << 31, u32::MAX];

/// A model of three states with M2's masks.
fn with_rows(version: u32, rows: Rows) -> Model {
    let mut model = Model { version, ..m2() };
    for (row, weights) in model.weights.iter_mut().zip(rows) {
        row[..3].copy_from_slice(&weights);
    }
    model
}

/// Compares every call on both sides of each limit of the versions; what the second program answers is what is listed.
pub fn compare_version_limits<L: Library>(lib: &L) -> Tally {
    let mut rng = Rng::new(1);
    let mut tally = Tally::new("limits of the versions");
    for (what, rows, refusals) in LIMITS {
        for version in [0, 1].into_iter().chain(IN_A_BYTE) {
            let refusal = refusals[version.min(2) as usize];
            in_a_file(lib, &mut rng, &mut tally, what, &with_rows(version, rows), refusal);
        }
        for version in [0, 1].into_iter().chain(IN_A_BYTE).chain(IN_A_RECORD) {
            let refusal = refusals[version.min(2) as usize];
            in_a_record(lib, &mut rng, &mut tally, what, &with_rows(version, rows), refusal);
        }
    }
    beyond_n(lib, &mut rng, &mut tally);
    tally.require(&[4, 5]);
    tally
}

/// In both versions rows and columns from N on are zero: an empty row there is not filled, one below N stays within N.
fn beyond_n<L: Library>(lib: &L, rng: &mut Rng, tally: &mut Tally) {
    for version in [0, 1] {
        for (row, column) in [(3, 3), (3, 0), (6, 6), (2, 3), (2, 31)] {
            let mut model = with_rows(version, last([0; 3]));
            model.weights[row][column] = 4;
            in_a_file(lib, rng, tally, "a weight beyond N", &model, Some(4));
            in_a_record(lib, rng, tally, "a weight beyond N", &model, Some(4));
        }
    }
}

/// One model as a file: every call that takes one gives the listed refusal, or answers.
fn in_a_file<L: Library>(
    lib: &L,
    rng: &mut Rng,
    tally: &mut Tally,
    what: &str,
    model: &Model,
    refusal: Option<u8>,
) {
    let file = spelled(model);
    let told = || shown_file(&file);
    let pair = Pair { file: file.clone(), text: b"A.GPU1,2:!a1a1#1/2;".to_vec() };
    let merging = Merging { file: file.clone(), grouping: vec![0, 1, 2], room: file.len() + 1 };
    let mut work = [0; ENOUGH];
    agree(what, &refusal, &second::read_model(&file).err(), told);
    agree(what, &refusal, &second::verdict(&file, &pair.text, &mut work).err(), told);
    agree(what, &refusal, &second::numerator(&file, &pair.text, &[0], 0, &mut work).err(), told);
    reader_case(lib, rng, tally, &file);
    let room = pair.enough_room(rng);
    verdict_case(lib, rng, tally, &pair, room);
    at_each_state(lib, rng, tally, &pair);
    let merged = merge_case(lib, rng, tally, &merging);
    let expected = refusal.is_none().then(|| file_of(&model.filled()));
    agree(what, &expected, &merged, told);
}

/// One model as a record: the writer gives the listed refusal, or writes.
fn in_a_record<L: Library>(
    lib: &L,
    rng: &mut Rng,
    tally: &mut Tally,
    what: &str,
    model: &Model,
    refusal: Option<u8>,
) {
    let answer = second::write_model(model, &mut [0; 1_024]);
    agree(what, &refusal, &answer.err(), || format!("  record {model:?}\n"));
    writer_case(lib, rng, tally, model, 1_024);
}

/// Empty rows with the numbers that follow from the document's words.
pub fn compare_empty_rows<L: Library>(lib: &L) {
    filled_files(lib);
    row_13(lib);
    numbers(lib);
}

/// The grouping 0, 1, 2 gives back M2's rows in version 1, and in version 0 or without an empty row the same file.
fn filled_files<L: Library>(lib: &L) {
    let mut expected = file_of(&m2());
    let full = expected.clone();
    let mut out = [7; 1_100];
    assert_eq!(lib.merge(&full, &[0, 1, 2], &mut out), Ok(1_024));
    assert_eq!(out[..1_024], full);
    // Byte 3 counts four times in the check.
    expected[3] = 1;
    expected[510] += 4;
    for file in [file_of(&halted()), expected.clone()] {
        out.fill(7);
        assert_eq!(lib.merge(&file, &[0, 1, 2], &mut out), Ok(1_024));
        assert_eq!((&out[..1_024], &out[1_024..]), (&expected[..], &[7; 76][..]));
    }
    let read = lib.read_model(&file_of(&halted())).expect("a file with an empty row");
    assert_eq!((read.version, read.weights[2]), (1, [0; 32]));
    assert_eq!(lib.merge(&file_of(&halted()), &[0, 1, 1], &mut out), Ok(1_024));
    let small = lib.read_model(&out[..1_024]).expect("the merged file");
    assert_eq!((small.n, small.a, small.d, small.version), (2, 1, 4, 1));
    assert_eq!((small.masks[..2].to_vec(), small.weights[0][..2].to_vec()), (vec![0, 1], vec![2, 2]));
    assert_eq!((small.weights[1][..2].to_vec(), small.weights[2]), (vec![0, 4], [0; 32]));
}

/// Row 13 on filled rows. States 0 and 1 halt, state 2 spells that out, state 3 moves to 2 or stays, state 4 moves to 0.
fn row_13<L: Merges>(lib: &L) {
    let mut model = Model { n: 5, a: 1, d: 4, version: 1, ..Model::empty() };
    model.weights[2][2] = 4;
    model.weights[3][2..4].copy_from_slice(&[1, 3]);
    model.weights[4][0] = 4;
    let said = |masks: [u16; 5], grouping: [u8; 5]| {
        let mut model = model.clone();
        model.masks[..5].copy_from_slice(&masks);
        lib.merge(&file_of(&model), &grouping, &mut [0; 1_024]).err()
    };
    for (grouping, refusal) in [
        ([0, 0, 1, 2, 3], None),
        ([0, 1, 0, 2, 3], None),
        ([0, 0, 0, 1, 2], None),
        ([0, 1, 2, 2, 3], None),
        ([0, 0, 0, 0, 1], None),
        ([0, 1, 2, 3, 0], None),
        ([1, 0, 0, 2, 1], None),
        ([0, 0, 0, 0, 0], None),
        ([0, 1, 2, 0, 3], Some(13)),
        ([0, 1, 2, 3, 1], Some(13)),
        ([0, 1, 2, 3, 2], Some(13)),
        ([0, 1, 1, 2, 1], Some(13)),
    ] {
        assert_eq!(said([0; 5], grouping), refusal, "grouping {grouping:?}");
    }
    assert_eq!(said([0, 1, 0, 0, 0], [0, 0, 1, 2, 3]), Some(13), "halted states of two masks");
    assert_eq!(said([0, 1, 0, 0, 0], [0, 1, 0, 2, 3]), None, "halted states of one mask");
}

/// Numerators and verdicts on M2 with its last row empty, and on M1's masks with no row that is not empty.
fn numbers<L: Questions>(lib: &L) {
    let mut still = Model { n: 2, a: 1, d: 4, version: 1, ..Model::empty() };
    still.masks[1] = 1;
    for (model, path, tuple, expected) in [
        (&halted(), "PXa1", &[2][..], (4, 4)),
        (&halted(), "PX!a1", &[2], (0, 4)),
        (&halted(), "PU0,2:Ta1", &[0], (12, 16)),
        (&halted(), "PU2,2:Ta1", &[1], (16, 16)),
        (&halted(), "PU1,3:a1a1", &[2], (64, 64)),
        (&halted(), "PX&a1a2", &[0, 2], (8, 16)),
        (&still, "PXa1", &[0], (0, 4)),
        (&still, "PXa1", &[1], (4, 4)),
        (&still, "PU1,2:Ta1", &[0], (0, 16)),
        (&still, "PU1,2:Ta1", &[1], (16, 16)),
        (&still, "PX!&a1!a2", &[1, 0], (0, 16)),
    ] {
        let text = format!("{}.={path}#0/1;", "A".repeat(tuple.len())).into_bytes();
        let got = lib.numerator(&file_of(model), &text, tuple, 0, &mut [1; ENOUGH]);
        assert_eq!(got, Ok(expected), "{path} at {tuple:?}");
    }
    for (model, text, expected) in [
        (&halted(), "A.=PXTPU0,3:TT", true),
        (&halted(), "A.!&a1<PXa1#1/1;", true),
        (&still, "A.=PXTPU0,3:TT", true),
        (&still, "AE.=PU1,3:Ta1PXa2", true),
        (&still, "E.&!a1>PU0,9:Ta1#0/1;", false),
    ] {
        let got = lib.verdict(&file_of(model), text.as_bytes(), &mut [1; ENOUGH]);
        assert_eq!(got, Ok(expected), "{text}");
    }
}
