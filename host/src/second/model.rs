//! The model file: blocks, block checks, reading and writing
//! (document 01, 'The model file'; document 02, T-05; refusals 2, 3, 4, 5 and 14).

/// Bytes of one block.
pub const BLOCK: usize = 512;
/// The most states that a model has, and the length of its rows.
pub const STATES: usize = 32;
/// States whose weights stand in one block.
pub const STATES_A_BLOCK: usize = 7;

/// A chain with whole-number weights: what the reader returns and the writer takes.
#[derive(Clone, Debug, PartialEq, Eq)]
pub struct Model {
    /// N, the number of states.
    pub n: u32,
    /// A, the number of labels.
    pub a: u32,
    /// D, to which the weights of every state add up.
    pub d: u32,
    /// The file's version: 0, or 1 where a state's row may be empty.
    pub version: u32,
    /// The label mask of each state: bit l for label l.
    pub masks: [u16; STATES],
    /// Row s, column t: the weight from s to t, as it stands in the file.
    pub weights: [[u16; STATES]; STATES],
}

impl Model {
    /// The record with every field zero. It is no model of the layout.
    pub fn empty() -> Model {
        Model { n: 0, a: 0, d: 0, version: 0, masks: [0; STATES], weights: [[0; STATES]; STATES] }
    }

    /// Whether a state's row is empty: zero in all its weights.
    pub fn row_is_empty(&self, state: usize) -> bool {
        self.weights[state] == [0; STATES]
    }

    /// The model after filling: in version 1 the empty row of a state below N becomes weight D to the state
    /// itself. Everything else stays, rows from N on too.
    pub fn filled(&self) -> Model {
        let mut model = self.clone();
        if self.version == 1 {
            for state in (0..self.n as usize).filter(|&state| self.row_is_empty(state)) {
                model.weights[state][state] = self.d as u16;
            }
        }
        model
    }
}

/// The check of a block: the sum of (i + 1) × byte i for i = 0..509, modulo 65,521.
pub fn block_check(block: &[u8]) -> u16 {
    let sum: u64 = block.iter().take(510).zip(1u64..).map(|(&byte, place)| place * u64::from(byte)).sum();
    (sum % 65_521) as u16
}

/// The number of blocks of a model of n states: 1 + n / 7 rounded up.
pub fn blocks_of(n: usize) -> usize {
    1 + n.div_ceil(STATES_A_BLOCK)
}

/// The first byte, in the whole file, of the weight from s to t.
pub fn weight_place(s: usize, t: usize) -> usize {
    BLOCK * (1 + s / STATES_A_BLOCK) + 2 + 64 * (s % STATES_A_BLOCK) + 2 * t
}

/// Reads a model file. Refusals 2, 3, 4, 5.
pub fn read_model(file: &[u8]) -> Result<Model, u8> {
    if file.is_empty() || file.len() > 6 * BLOCK || !file.len().is_multiple_of(BLOCK) {
        return Err(2);
    }
    if !file.chunks(BLOCK).all(check_is_right) {
        return Err(3);
    }
    let model = fields(file).ok_or(4)?;
    // The layout leaves no byte free: a file in the layout is the spelling of its fields.
    if !in_layout(&model) || spelled(&model) != file {
        return Err(4);
    }
    if !rows_right(&model) {
        return Err(5);
    }
    Ok(model)
}

/// Writes a model's file to the front of `out` and tells its length. Refusals 4, 5, 14.
pub fn write_model(model: &Model, out: &mut [u8]) -> Result<usize, u8> {
    if !in_layout(model) {
        return Err(4);
    }
    if !rows_right(model) {
        return Err(5);
    }
    let file = spelled(model);
    let front = out.get_mut(..file.len()).ok_or(14)?;
    front.copy_from_slice(&file);
    Ok(file.len())
}

/// Whether bytes 510 and 511 hold the block's check.
fn check_is_right(block: &[u8]) -> bool {
    number(block, 510) == block_check(block)
}

/// The number of two bytes at a place, low byte first.
fn number(bytes: &[u8], at: usize) -> u16 {
    u16::from_le_bytes([bytes[at], bytes[at + 1]])
}

/// The fields that stand in a file, if its N is one that its blocks can hold.
fn fields(file: &[u8]) -> Option<Model> {
    let n = usize::from(file[1]);
    if n > STATES || blocks_of(n) * BLOCK != file.len() {
        return None;
    }
    let mut model = Model::empty();
    model.n = file[1].into();
    model.a = file[2].into();
    model.version = file[3].into();
    model.d = u32::from_le_bytes([file[4], file[5], file[6], file[7]]);
    for s in 0..n {
        model.masks[s] = number(file, 8 + 2 * s);
        for t in 0..n {
            model.weights[s][t] = number(file, weight_place(s, t));
        }
    }
    Some(model)
}

/// Whether a record keeps to the layout: N, A, D and the version in range, no mask
/// bit from A on, nothing but zero in masks, rows and columns from N on.
fn in_layout(model: &Model) -> bool {
    let n = model.n as usize;
    let a = model.a;
    (1..=32).contains(&n)
        && (1..=16).contains(&a)
        && (1..=65_535).contains(&model.d)
        && model.version <= 1
        && model.masks.iter().all(|&mask| u32::from(mask) >> a == 0)
        && (n..STATES).all(|s| model.masks[s] == 0)
        && (0..STATES).all(|s| (0..STATES).all(|t| (s < n && t < n) || model.weights[s][t] == 0))
}

/// Whether every state's weights add up to D, or are all zero where the version allows it.
fn rows_right(model: &Model) -> bool {
    let total = |state: usize| model.weights[state].iter().map(|&weight| u32::from(weight)).sum::<u32>();
    let may_be_empty = model.version == 1;
    (0..model.n as usize).all(|s| total(s) == model.d || (may_be_empty && model.row_is_empty(s)))
}

/// The file of a record of the layout, block by block, each with its check.
fn spelled(model: &Model) -> Vec<u8> {
    let n = model.n as usize;
    let mut file = vec![0; BLOCK * blocks_of(n)];
    file[0] = 1;
    file[1] = model.n as u8;
    file[2] = model.a as u8;
    file[3] = model.version as u8;
    file[4..8].copy_from_slice(&model.d.to_le_bytes());
    for (i, block) in file.chunks_mut(BLOCK).enumerate().skip(1) {
        block[0] = 2;
        block[1] = i as u8;
    }
    for s in 0..n {
        file[8 + 2 * s..10 + 2 * s].copy_from_slice(&model.masks[s].to_le_bytes());
        for t in 0..n {
            let at = weight_place(s, t);
            file[at..at + 2].copy_from_slice(&model.weights[s][t].to_le_bytes());
        }
    }
    mend(&mut file);
    file
}

/// Writes into each whole block of a file the check that its bytes call for.
pub fn mend(file: &mut [u8]) {
    for block in file.chunks_exact_mut(BLOCK) {
        let check = block_check(block);
        block[510..].copy_from_slice(&check.to_le_bytes());
    }
}

/// The two models of the document's examples, and one with an empty row, for tests.
pub mod examples {
    use super::Model;

    /// M1: N = 2, A = 1, D = 4; masks 0 and 1; rows 3 1 and 0 4.
    pub fn m1() -> Model {
        let mut model = Model { n: 2, a: 1, d: 4, ..Model::empty() };
        model.masks[1] = 1;
        model.weights[0][..2].copy_from_slice(&[3, 1]);
        model.weights[1][..2].copy_from_slice(&[0, 4]);
        model
    }

    /// M2: N = 3, A = 1, D = 4; masks 0, 1, 1; rows 2 1 1, 0 3 1, 0 0 4.
    pub fn m2() -> Model {
        let mut model = Model { n: 3, a: 1, d: 4, ..Model::empty() };
        model.masks[..3].copy_from_slice(&[0, 1, 1]);
        model.weights[0][..3].copy_from_slice(&[2, 1, 1]);
        model.weights[1][..3].copy_from_slice(&[0, 3, 1]);
        model.weights[2][..3].copy_from_slice(&[0, 0, 4]);
        model
    }

    /// M2 in version 1, the row of its last state left empty. Filled, it has M2's rows.
    pub fn halted() -> Model {
        let mut model = Model { version: 1, ..m2() };
        model.weights[2] = [0; 32];
        model
    }
}

#[cfg(test)]
mod tests {
    use super::examples::{halted, m1, m2};
    use super::*;

    fn file(model: &Model) -> Vec<u8> {
        let mut out = [0; 3_072];
        let length = write_model(model, &mut out).unwrap();
        out[..length].to_vec()
    }

    #[test]
    fn the_checks_of_m1_are_those_of_the_document() {
        let file = file(&m1());
        assert_eq!(file.len(), 1_024);
        assert_eq!(block_check(&file[..512]), 39);
        assert_eq!(block_check(&file[512..]), 294);
        assert_eq!(file[510..512], [39, 0]);
        assert_eq!(file[1_022..], [38, 1]);
    }

    #[test]
    fn m1_stands_byte_by_byte_where_the_document_says() {
        let mut expected = vec![0; 1_024];
        expected[..12].copy_from_slice(&[1, 2, 1, 0, 4, 0, 0, 0, 0, 0, 1, 0]);
        expected[510] = 39;
        expected[512..518].copy_from_slice(&[2, 1, 3, 0, 1, 0]);
        expected[512 + 2 + 64 + 2] = 4;
        expected[1_022..].copy_from_slice(&[38, 1]);
        assert_eq!(file(&m1()), expected);
    }

    #[test]
    fn reading_what_was_written_gives_the_same() {
        for model in [m1(), m2(), Model { version: 1, ..m2() }, halted(), halted().filled()] {
            assert_eq!(read_model(&file(&model)), Ok(model));
        }
    }

    #[test]
    fn a_length_outside_the_list_is_2() {
        for length in 0..3_600 {
            let expected = if length % 512 == 0 && (512..=3_072).contains(&length) { 3 } else { 2 };
            assert_eq!(read_model(&vec![7; length]), Err(expected), "length {length}");
        }
    }

    #[test]
    fn each_byte_of_m1_counts() {
        let good = file(&m1());
        for place in 0..good.len() {
            let mut bad = good.clone();
            bad[place] ^= 0x40;
            assert_eq!(read_model(&bad), Err(3), "byte {place}, check as it was");
            mend(&mut bad);
            let of_block = place % 512;
            let weight = |from: usize| place >= 512 && (from..from + 4).contains(&of_block);
            let expected = match of_block {
                510 | 511 => Ok(m1()),
                4 | 5 if place < 512 => Err(5),
                _ if weight(2) || weight(66) => Err(5),
                _ => Err(4),
            };
            assert_eq!(read_model(&bad), expected, "byte {place}, check mended");
        }
    }

    #[test]
    fn the_writer_refuses_by_4_then_5_then_14() {
        let wrong = |change: fn(&mut Model)| {
            let mut model = m1();
            change(&mut model);
            let mut out = [9; 2_000];
            let answer = write_model(&model, &mut out);
            assert_eq!(out, [9; 2_000]);
            answer
        };
        assert_eq!(wrong(|m| m.n = 0), Err(4));
        assert_eq!(wrong(|m| m.n = 33), Err(4));
        assert_eq!(wrong(|m| m.n = 1), Err(4));
        assert_eq!(wrong(|m| m.n = 3), Err(5));
        assert_eq!(wrong(|m| m.a = 0), Err(4));
        assert_eq!(wrong(|m| m.a = 17), Err(4));
        assert_eq!(wrong(|m| m.d = 0), Err(4));
        assert_eq!(wrong(|m| m.d = 65_536), Err(4));
        assert_eq!(wrong(|m| m.version = 2), Err(4));
        assert_eq!(wrong(|m| m.version = 256), Err(4));
        assert_eq!(wrong(|m| m.version = 65_536), Err(4));
        assert_eq!(wrong(|m| m.version = u32::MAX), Err(4));
        assert_eq!(wrong(|m| m.masks[0] = 2), Err(4));
        assert_eq!(wrong(|m| m.masks[31] = 1), Err(4));
        assert_eq!(wrong(|m| m.weights[0][2] = 1), Err(4));
        assert_eq!(wrong(|m| m.weights[2][0] = 1), Err(4));
        assert_eq!(wrong(|m| m.weights[1][0] = 1), Err(5));
        assert_eq!(wrong(|m| m.weights[1][1] = 0), Err(5));
        assert_eq!(wrong(|m| (m.version, m.weights[1][1]) = (1, 3)), Err(5));
        assert_eq!(wrong(|m| (m.version, m.weights[0][1]) = (1, 0)), Err(5));
        assert_eq!(wrong(|m| (m.version, m.weights[1][1]) = (2, 0)), Err(4));
        assert_eq!(write_model(&m1(), &mut [0; 1_023]), Err(14));
        assert_eq!(write_model(&m1(), &mut [0; 1_024]), Ok(1_024));
    }

    /// A file with byte 3 and the weights of state 0 changed, its checks mended.
    fn changed(model: &Model, version: u8, row: [u16; 2]) -> Vec<u8> {
        let mut file = file(model);
        file[3] = version;
        for (t, weight) in row.into_iter().enumerate() {
            file[weight_place(0, t)..][..2].copy_from_slice(&weight.to_le_bytes());
        }
        mend(&mut file);
        file
    }

    #[test]
    fn byte_3_is_the_version_and_4_above_1() {
        for version in 0..=255 {
            let expected = if version > 1 { Err(4) } else { Ok(Model { version: version.into(), ..m1() }) };
            assert_eq!(read_model(&changed(&m1(), version, [3, 1])), expected, "version {version}");
            let empty = [Err(5), Ok(()), Err(4)][usize::from(version.min(2))];
            assert_eq!(read_model(&changed(&m1(), version, [0, 0])).map(|_| ()), empty, "version {version}");
        }
        let file = file(&Model { version: 1, ..m1() });
        assert_eq!(file[510..512], [43, 0]);
        assert_eq!(file[512..], self::file(&m1())[512..]);
    }

    #[test]
    fn a_row_partly_zero_is_5_in_both_versions() {
        for row in [[3, 0], [0, 1], [1, 0], [0, 3], [5, 0], [65_535, 1], [65_535, 5]] {
            for version in [0, 1] {
                assert_eq!(read_model(&changed(&m1(), version, row)), Err(5), "{row:?} in version {version}");
            }
        }
    }

    #[test]
    fn reading_keeps_an_empty_row_and_filling_gives_it_d() {
        let read = read_model(&file(&halted())).unwrap();
        assert!(read.row_is_empty(2) && !read.row_is_empty(1));
        assert_eq!(read.filled(), Model { version: 1, ..m2() });
        assert_eq!(m2().filled(), m2());
        let mut still = Model { n: 2, a: 1, d: 9, version: 1, ..Model::empty() };
        assert_eq!(read_model(&file(&still)), Ok(still.clone()));
        let rows_from_n = still.weights;
        still = still.filled();
        assert_eq!(
            (still.weights[0][..3].to_vec(), still.weights[1][..3].to_vec()),
            (vec![9, 0, 0], vec![0, 9, 0])
        );
        assert_eq!(still.weights[2..], rows_from_n[2..]);
        assert_eq!(still.filled(), still);
        still.version = 0;
        still.weights[0] = [0; 32];
        assert_eq!(still.filled(), still);
    }
}
