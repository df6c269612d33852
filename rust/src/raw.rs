//! The library's functions as `include/twolsken.h` declares them, for callers who lend all memory themselves.
//!
//! A slice is a pointer and then its length in elements. No pointer may be null. What a function may write
//! overlaps nothing else that is lent to it. The header says what each function answers.

use crate::{LETTERS, NODES, STATES};

/// A writer's answer from here on is a refusal, and the rest of it the refusal's number.
pub const REFUSED: u64 = 1 << 32;
/// Verdict's answer where the sentence holds.
pub const HOLDS: u32 = 256;
/// Verdict's answer where the sentence fails.
pub const FAILS: u32 = 257;

/// N, A and D of a model, and the version of its file.
pub type ModelHead = [u32; 4];
/// The label mask of each state.
pub type Masks = [u16; STATES];
/// The weight from state s to state t in row s, column t.
pub type Rows = [[u16; STATES]; STATES];
/// The number of letters and the number of nodes of a sentence.
pub type SentenceHead = [u64; 2];
/// For each letter 1 if it is `E`, else 0.
pub type Exists = [u8; LETTERS];
/// For each node its tag and the two numbers that it holds.
pub type Codes = [[u32; 3]; NODES];

extern "C" {
    /// Read model.
    pub fn twolsken_read_model(
        file: *const u8,
        file_length: usize,
        head: *mut ModelHead,
        masks: *mut Masks,
        rows: *mut Rows,
    ) -> u32;
    /// Write model.
    pub fn twolsken_write_model(
        head: *const ModelHead,
        masks: *const Masks,
        rows: *const Rows,
        out: *mut u8,
        out_length: usize,
    ) -> u64;
    /// Read sentence.
    pub fn twolsken_read_sentence(
        text: *const u8,
        text_length: usize,
        head: *mut SentenceHead,
        exists: *mut Exists,
        codes: *mut Codes,
    ) -> u32;
    /// Write sentence.
    pub fn twolsken_write_sentence(
        letters: u64,
        count: u64,
        exists: *const Exists,
        codes: *const Codes,
        out: *mut u8,
        out_length: usize,
    ) -> u64;
    /// Merge.
    pub fn twolsken_merge(
        file: *const u8,
        file_length: usize,
        grouping: *const u8,
        grouping_length: usize,
        out: *mut u8,
        out_length: usize,
    ) -> u64;
    /// Verdict.
    pub fn twolsken_verdict(
        file: *const u8,
        file_length: usize,
        text: *const u8,
        text_length: usize,
        work: *mut u64,
        work_length: usize,
    ) -> u32;
    /// Numerator.
    pub fn twolsken_numerator(
        file: *const u8,
        file_length: usize,
        text: *const u8,
        text_length: usize,
        tuple: *const u8,
        tuple_length: usize,
        path: usize,
        work: *mut u64,
        work_length: usize,
        value: *mut [u64; 2],
    ) -> u32;
}
