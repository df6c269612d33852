//! Refusal 14 on both sides of its limit, with the exact length of what is to be written.

use twolsken::{merge, read_sentence, write_model, write_sentence, Model, Refusal};

/// What lies in an output before a call.
const BEFORE: u8 = 0xA5;

/// Tries a writer on outputs about the length that it needs: shorter is refused by 14 and changes nothing; from
/// that length on it writes the same bytes, and those past them stay.
fn needs_exactly(length: usize, write: impl Fn(&mut [u8]) -> Result<usize, Refusal>) {
    let mut written = vec![BEFORE; length];
    assert_eq!(write(&mut written), Ok(length));
    for room in [0, 1, length / 2, length - 1] {
        let mut out = vec![BEFORE; room];
        assert_eq!(write(&mut out), Err(Refusal::OutputShort), "{room} bytes for {length}");
        assert!(out.iter().all(|&byte| byte == BEFORE), "{room} bytes for {length}");
    }
    for room in [length + 1, length + 512, 2 * length] {
        let mut out = vec![BEFORE; room];
        assert_eq!(write(&mut out), Ok(length), "{room} bytes for {length}");
        assert_eq!(out[..length], written, "{room} bytes for {length}");
        assert!(out[length..].iter().all(|&byte| byte == BEFORE), "{room} bytes for {length}");
    }
}

/// A model of n states that each stay where they are, all alike but for the label of state 0. In version 1 their rows are
/// empty.
fn still(n: u32, version: u32) -> Model {
    let mut model = Model { n, a: 1, d: 3, version, ..Model::empty() };
    model.masks[0] = 1;
    for state in 0..n as usize {
        model.weights[state][state] = if version == 0 { 3 } else { 0 };
    }
    model
}

#[test]
fn a_model_needs_512_bytes_for_its_head_and_for_each_seven_states() {
    for (n, length) in [
        (1, 1_024),
        (7, 1_024),
        (8, 1_536),
        (14, 1_536),
        (15, 2_048),
        (21, 2_048),
        (22, 2_560),
        (28, 2_560),
        (29, 3_072),
        (32, 3_072),
    ] {
        for version in [0, 1] {
            needs_exactly(length, |out| write_model(&still(n, version), out));
        }
    }
}

#[test]
fn a_sentence_needs_the_bytes_of_its_text() {
    let longest = format!("A.={}{}#1/1234;", "+".repeat(29), "#12345/1234;".repeat(30));
    for (text, length) in [
        ("A.T", 3),
        ("AEAE.p4", 7),
        ("AE.=PXa1PXa2", 12),
        ("A.GPU0,60:Ta1#65535/65535;", 26),
        (longest.as_str(), 400),
    ] {
        let sentence = read_sentence(text.as_bytes()).expect(text);
        needs_exactly(length, |out| write_sentence(&sentence, out));
    }
}

/// The grouping of n states by which state 0 is alone and the others are spread over the other groups in turn.
fn spread(n: u8, groups: u8) -> Vec<u8> {
    (0..n).map(|state| if state < groups { state } else { 1 + (state - groups) % (groups - 1) }).collect()
}

#[test]
fn a_merged_model_needs_the_bytes_of_its_own_file() {
    for (n, groups, length) in [
        (2, 2, 1_024),
        (32, 2, 1_024),
        (32, 7, 1_024),
        (32, 8, 1_536),
        (32, 14, 1_536),
        (32, 15, 2_048),
        (32, 21, 2_048),
        (32, 22, 2_560),
        (32, 28, 2_560),
        (32, 29, 3_072),
        (32, 32, 3_072),
    ] {
        for version in [0, 1] {
            let file = still(n, version).to_file().expect("a model");
            needs_exactly(length, |out| merge(&file, &spread(n as u8, groups), out));
        }
    }
}
