//! The limits of a model's N, A, D and version, and of its rows, on both sides: for the writer, and for the reader where a
//! file can pass them.

use twolsken::{read_model, Model, Refusal};

/// A model of state 0 that stays, with what is said of N, A and D; further states go to state 0.
fn with(n: u32, a: u32, d: u32) -> Model {
    let mut model = Model { n, a, d, ..Model::empty() };
    for row in model.weights.iter_mut().take(n as usize) {
        row[0] = d as u16;
    }
    model
}

/// What the writer refuses a model by; where it does not, the reader gives the model again.
fn refused(model: Model) -> Option<Refusal> {
    match model.to_file() {
        Ok(file) => {
            assert_eq!(read_model(&file), Ok(model));
            None
        }
        Err(refusal) => Some(refusal),
    }
}

/// What the writer refuses the model of an N, an A and a D by.
fn written(n: u32, a: u32, d: u32) -> Option<Refusal> {
    refused(with(n, a, d))
}

/// A file with another byte in one place, each block with the check that its bytes call for.
fn changed(file: &[u8], place: usize, byte: u8) -> Vec<u8> {
    let mut file = file.to_vec();
    file[place] = byte;
    for block in file.chunks_mut(512) {
        let sum: u32 = block[..510].iter().zip(1..).map(|(&byte, factor)| u32::from(byte) * factor).sum();
        block[510..].copy_from_slice(&((sum % 65_521) as u16).to_le_bytes());
    }
    file
}

#[test]
fn states() {
    for n in [1, 2, 31, 32] {
        assert_eq!(written(n, 1, 4), None, "N = {n}");
    }
    // 258 and 65,538 end in the byte 2, and are no 2.
    for n in [0, 33, 34, 255, 256, 257, 258, 288, 65_538, 1 << 24, u32::MAX] {
        assert_eq!(written(n, 1, 4), Some(Refusal::Layout), "N = {n}");
    }
}

#[test]
fn labels() {
    for a in [1, 2, 15, 16] {
        assert_eq!(written(2, a, 4), None, "A = {a}");
    }
    for a in [0, 17, 18, 255, 256, 257, 258, 272, 65_537, 1 << 24, u32::MAX] {
        assert_eq!(written(2, a, 4), Some(Refusal::Layout), "A = {a}");
    }
}

#[test]
fn totals() {
    for d in [1, 2, 255, 256, 65_534, 65_535] {
        assert_eq!(written(2, 1, d), None, "D = {d}");
    }
    for d in [0, 65_536, 65_537, 65_540, 1 << 24, u32::MAX] {
        assert_eq!(written(2, 1, d), Some(Refusal::Layout), "D = {d}");
    }
}

#[test]
fn layout_comes_before_sums() {
    let mut model = with(2, 1, 4);
    model.weights[0][0] = 3;
    assert_eq!(model.to_file(), Err(Refusal::RowSum));
    model.n = 258;
    assert_eq!(model.to_file(), Err(Refusal::Layout));
    (model.n, model.version) = (2, 2);
    assert_eq!(model.to_file(), Err(Refusal::Layout));
}

#[test]
fn versions_of_a_record() {
    for version in [0, 1] {
        assert_eq!(refused(Model { version, ..with(2, 1, 4) }), None, "version {version}");
    }
    // 256 ends in the byte 0 and 257 in the byte 1, and they are neither.
    for version in [2, 3, 255, 256, 257, 65_536, 65_537, 1 << 24, u32::MAX] {
        assert_eq!(refused(Model { version, ..with(2, 1, 4) }), Some(Refusal::Layout), "version {version}");
    }
}

#[test]
fn versions_of_a_file() {
    let model = with(2, 1, 4);
    let file = model.to_file().expect("a file");
    for byte in 0..=255 {
        let expected = match byte {
            0 | 1 => Ok(Model { version: byte.into(), ..model.clone() }),
            _ => Err(Refusal::Layout),
        };
        assert_eq!(read_model(&changed(&file, 3, byte)), expected, "version {byte}");
    }
}

/// A model of 8 states, so that its rows are in two blocks, with another row for one of them.
fn with_row(version: u32, state: usize, row: [u16; 2]) -> Model {
    let mut model = Model { version, ..with(8, 1, 4) };
    model.weights[state][..2].copy_from_slice(&row);
    model
}

#[test]
fn an_empty_row_needs_version_1() {
    for state in [0, 1, 6, 7] {
        assert_eq!(refused(with_row(0, state, [0, 0])), Some(Refusal::RowSum), "state {state}");
        assert_eq!(refused(with_row(1, state, [0, 0])), None, "state {state}");
        let file = with_row(1, state, [0, 0]).to_file().expect("a file");
        assert_eq!(read_model(&changed(&file, 3, 0)), Err(Refusal::RowSum), "state {state}");
    }
    for version in [0, 1] {
        let all_empty = Model { version, weights: Model::empty().weights, ..with(32, 1, 4) };
        assert_eq!(refused(all_empty).is_none(), version == 1, "version {version}");
    }
}

/// Totals of 1, D - 1, D + 1 and 65,536, which ends in the two bytes of 0: none is D, and none of the rows is empty.
#[test]
fn a_row_that_is_partly_empty_is_refused_in_both_versions() {
    for row in [[1, 0], [0, 1], [3, 0], [2, 1], [4, 1], [5, 0], [65_535, 1], [32_768, 32_768]] {
        for (version, state) in [(0, 0), (0, 7), (1, 0), (1, 7)] {
            let model = with_row(version, state, row);
            assert_eq!(refused(model), Some(Refusal::RowSum), "version {version}, {row:?}");
        }
    }
    for version in [0, 1] {
        let file = with_row(version, 0, [0, 4]).to_file().expect("a file");
        // the low byte of the weight from state 0 to state 1
        for weight in [1, 3, 5] {
            assert_eq!(read_model(&changed(&file, 516, weight)), Err(Refusal::RowSum), "{weight}");
        }
        let halted = read_model(&changed(&file, 516, 0));
        assert_eq!(halted, if version == 1 { Ok(with_row(1, 0, [0, 0])) } else { Err(Refusal::RowSum) });
    }
}

/// What stands from N on is no row of a state: version 1 allows nothing there.
#[test]
fn rows_and_columns_from_n_on_are_zero_in_both_versions() {
    for version in [0, 1] {
        let mut row = with_row(version, 0, [4, 0]);
        row.weights[8][8] = 4;
        assert_eq!(refused(row), Some(Refusal::Layout), "version {version}");
        let mut column = with_row(version, 0, [0, 0]);
        column.weights[0][8] = 4;
        assert_eq!(refused(column), Some(Refusal::Layout), "version {version}");
    }
}
