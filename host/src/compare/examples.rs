//! The document's examples on both sides, with the numbers that it gives, or T-02 where only some variables are named.

use super::{agree, shown_text, Library, Models, Questions};
use crate::inputs::model::file_of;
use crate::second::meaning::ENOUGH;
use crate::second::model::examples::{m1, m2};
use crate::second::Model;

/// Runs every line of 'Examples on both sides' and compares with the numbers of
/// the document itself.
pub fn compare_examples<L: Library>(lib: &L) {
    model_lines(lib);
    merge_lines(lib);
    numerator_lines(lib);
    verdict_lines(lib);
    limit_lines(lib);
    limit_numerators(lib);
}

/// A model of n states that each stay where they are, with one label.
fn still(n: u32, d: u32) -> Model {
    let mut model = Model { n, a: 1, d, ..Model::empty() };
    for s in 0..n as usize {
        model.weights[s][s] = d as u16;
    }
    model
}

/// M1 and its checks.
fn model_lines<L: Models>(lib: &L) {
    let mut out = [0; 1_024];
    assert_eq!(lib.write_model(&m1(), &mut out), Ok(1_024));
    assert_eq!(out[..12], [1, 2, 1, 0, 4, 0, 0, 0, 0, 0, 1, 0]);
    assert_eq!(out[510..512], [39, 0]);
    assert_eq!(out[1_022..], [38, 1]);
    assert_eq!(lib.read_model(&out), Ok(m1()));
    assert_eq!(lib.read_model(&file_of(&m2())), Ok(m2()));
}

/// One numerator and denominator, the path under as many letters as the tuple has members.
fn fraction<L: Questions>(lib: &L, model: &Model, path: &str, tuple: &[u8], expected: (u64, u64)) {
    let text = format!("{}.={path}#0/1;", "A".repeat(tuple.len())).into_bytes();
    let got = lib.numerator(&file_of(model), &text, tuple, 0, &mut [1; ENOUGH]);
    agree("the example's fraction", &Ok(expected), &got, || shown_text(&text));
}

/// The lines that give a fraction.
fn numerator_lines<L: Questions>(lib: &L) {
    fraction(lib, &m1(), "PXa1", &[0], (1, 4));
    fraction(lib, &m1(), "PXa1", &[1], (4, 4));
    fraction(lib, &m1(), "PU0,2:Ta1", &[0], (7, 16));
    fraction(lib, &m1(), "PU0,2:Ta1", &[1], (16, 16));
    fraction(lib, &m1(), "PU2,2:!a1a1", &[0], (3, 16));
    fraction(lib, &m1(), "PU2,2:!a1a1", &[1], (0, 16));
    fraction(lib, &m1(), "PU0,2:!a1a1", &[1], (16, 16));
    fraction(lib, &m1(), "PX&a1a2", &[0, 0], (1, 16));
    fraction(lib, &m1(), "PX&a1a2", &[0, 1], (4, 16));
    fraction(lib, &m2(), "PU0,2:Ta1", &[0], (12, 16));
    // M2 merged by 0 1 1, and the numbers at the ends.
    let mut merged = Model { n: 2, a: 1, d: 4, ..Model::empty() };
    merged.masks[1] = 1;
    merged.weights[0][..2].copy_from_slice(&[2, 2]);
    merged.weights[1][..2].copy_from_slice(&[0, 4]);
    fraction(lib, &merged, "PU0,2:Ta1", &[0], (12, 16));
    fraction(lib, &m1(), "PU0,0:TT", &[0], (1, 1));
    fraction(lib, &m1(), "PU0,31:Ta1", &[1], (1 << 62, 1 << 62));
    fraction(lib, &m1(), "PU0,31:Ta1", &[0], ((1 << 62) - 3u64.pow(31), 1 << 62));
    fraction(lib, &still(2, 1), "PU0,60:TT", &[1], (1, 1));
    fraction(lib, &still(32, 4), "PX!&a1a2", &[31, 31], (16, 16));
    fraction(lib, &still(32, 4), "PXT", &[31, 31], (1, 1));
}

/// One numerator of the first path at the tuple of zeros, or a refusal.
fn asked<L: Questions>(lib: &L, model: &Model, text: &str, expected: Result<(u64, u64), u8>) {
    let letters = text.find('.').unwrap_or(1);
    let got = lib.numerator(&file_of(model), text.as_bytes(), &vec![0; letters], 0, &mut [1; ENOUGH]);
    agree("the example's numerator", &expected, &got, || shown_text(text.as_bytes()));
}

/// The lines that give a verdict or a limit, by numerator: a sentence without a path is refused by 15.
fn limit_numerators<L: Questions>(lib: &L) {
    asked(lib, &m1(), "AA.=PXa1PXa2", Ok((1, 4)));
    asked(lib, &m1(), "A.L-#1/4;PXa1#0/1;", Ok((1, 4)));
    asked(lib, &m1(), "A.=PU0,0:TT#1/1;", Ok((1, 1)));
    asked(lib, &m1(), "A.GPU0,32:Ta1#0/1;", Err(10));
    asked(lib, &m1(), "A.GPU0,31:Ta1#0/2;", Err(10));
    asked(lib, &still(32, 4), "AA.T", Err(15));
    asked(lib, &still(32, 4), "AA.=PX!a1PX!a2", Ok((4, 4)));
    asked(lib, &still(11, 4), "AAA.T", Err(11));
    asked(lib, &m1(), "A.a2", Err(7));
    asked(lib, &m1(), "A.a5", Err(6));
    asked(lib, &m1(), "", Err(6));
    asked(lib, &still(2, 1), "A.=PU0,60:Ta1#0/1;", Ok((0, 1)));
    asked(lib, &still(2, 1), "A.=PU0,61:Ta1#0/1;", Err(7));
    asked(lib, &m1(), &format!("A.{}T", "!".repeat(63)), Err(15));
    asked(lib, &m1(), &format!("A.{}T", "!".repeat(64)), Err(8));
    asked(lib, &m1(), "A.b1", Err(9));
}

/// One verdict or refusal.
fn said<L: Questions>(lib: &L, model: &Model, text: &str, expected: Result<bool, u8>) {
    let got = lib.verdict(&file_of(model), text.as_bytes(), &mut [1; ENOUGH]);
    agree("the example's verdict", &expected, &got, || shown_text(text.as_bytes()));
}

/// The lines that give a verdict.
fn verdict_lines<L: Questions>(lib: &L) {
    said(lib, &m1(), "AA.=PXa1PXa2", Ok(false));
    said(lib, &m1(), "AE.=PXa1PXa2", Ok(true));
    said(lib, &m1(), "A.L-#1/4;PXa1#0/1;", Ok(true));
    said(lib, &m1(), "A.=-#1/4;PXa1#0/1;", Ok(false));
    said(lib, &m1(), "A.!&a1!=-#1/4;PXa1-#0/1;#3/4;", Ok(true));
    said(lib, &m1(), "A.=PU0,0:TT#1/1;", Ok(true));
    said(lib, &m1(), "A.GPU0,31:Ta1#0/1;", Ok(true));
}

/// The lines about limits.
fn limit_lines<L: Questions>(lib: &L) {
    said(lib, &m1(), "A.GPU0,32:Ta1#0/1;", Err(10));
    said(lib, &m1(), "A.GPU0,31:Ta1#0/2;", Err(10));
    said(lib, &still(32, 4), "AA.T", Ok(true));
    said(lib, &still(11, 4), "AAA.T", Err(11));
    said(lib, &m1(), "A.a2", Err(7));
    said(lib, &m1(), "A.a5", Err(6));
    said(lib, &m1(), "", Err(6));
    said(lib, &still(2, 1), "A.=PU0,60:Ta1#0/1;", Ok(true));
    said(lib, &still(2, 1), "A.=PU0,61:Ta1#0/1;", Err(7));
    said(lib, &m1(), &format!("A.{}T", "!".repeat(63)), Ok(false));
    said(lib, &m1(), &format!("A.{}T", "!".repeat(64)), Err(8));
    said(lib, &m1(), "A.b1", Err(9));
}

/// The lines about merging.
fn merge_lines<L: Library>(lib: &L) {
    let full = file_of(&m2());
    let mut out = [7; 1_100];
    assert_eq!(lib.merge(&full, &[0, 0, 1], &mut out), Err(13));
    assert_eq!(lib.merge(&full, &[0, 2, 2], &mut out), Err(12));
    assert_eq!(out, [7; 1_100]);
    assert_eq!(lib.merge(&full, &[0, 1, 2], &mut out), Ok(1_024));
    assert_eq!(out[..1_024], full);
    assert_eq!(lib.merge(&full, &[0, 1, 1], &mut out), Ok(1_024));
    let small = lib.read_model(&out[..1_024]).expect("the merged file");
    assert_eq!((small.n, small.a, small.d), (2, 1, 4));
    assert_eq!(small.masks[..2], [0, 1]);
    assert_eq!((small.weights[0][..2].to_vec(), small.weights[1][..2].to_vec()), (vec![2, 2], vec![0, 4]));
    fraction(lib, &small, "PU0,2:Ta1", &[0], (12, 16));
}
