//! The sentence reader and the sentence writer.

use super::{agree, output, output_after, shown_text, Sentences, Tally};
use crate::inputs::{sentence, Rng};
use crate::second::sentence::{LETTERS, NODES};
use crate::second::{self, Node, Sentence};

/// Compares reading on `cases` random texts, and on texts of every length
/// 0..600 and some far beyond, and on a text with every byte changed in every
/// way; what is read is written again and gives the same text.
pub fn compare_sentence_reader<L: Sentences>(lib: &L, cases: usize, seed: u64) -> Tally {
    let mut rng = Rng::new(seed);
    let mut tally = Tally::new("sentence reader");
    for length in (0..=600).chain([65_535, 65_536, 65_539, 1_000_000]) {
        let text = of_length(&mut rng, length);
        reader_case(lib, &mut rng, &mut tally, &text);
    }
    each_byte_changed(lib, &mut rng, &mut tally);
    for _ in 0..cases {
        any_read(lib, &mut rng, &mut tally);
    }
    tally.require(&[6, 7, 8]);
    tally
}

/// One random text.
pub(super) fn any_read<L: Sentences>(lib: &L, rng: &mut Rng, tally: &mut Tally) {
    let text = sentence::text(rng);
    reader_case(lib, rng, tally, &text);
}

/// A text with every form of the grammar in it.
const FORMS: &[u8] =
    b"AEAE.&!a1&>+*PXp4#65535/1;-PU0,60:TT#0/65535;PXT&<PXTPXT&L#1/2;#1/2;&G#0/1;#9/10;=PXTPXT";

/// That text with each byte taken out, and each byte put in the place of one
/// and before it.
fn each_byte_changed<L: Sentences>(lib: &L, rng: &mut Rng, tally: &mut Tally) {
    for place in 0..FORMS.len() {
        let (front, back) = FORMS.split_at(place);
        reader_case(lib, rng, tally, &[front, &back[1..]].concat());
        for byte in 0..=255 {
            reader_case(lib, rng, tally, &[front, &[byte], &back[1..]].concat());
            reader_case(lib, rng, tally, &[front, &[byte], back].concat());
        }
    }
    for byte in 0..=255 {
        reader_case(lib, rng, tally, &[FORMS, &[byte]].concat());
    }
}

/// A prefix and many operators, or such operators that the text is right but for its length.
fn of_length(rng: &mut Rng, length: usize) -> Vec<u8> {
    let mut text = b"AA.".to_vec();
    text.resize(length.max(1), rng.pick(b"!!&"));
    text.truncate(length);
    if let Some(last) = text.last_mut() {
        *last = b'T';
    }
    text
}

/// One text: read, and if accepted written again.
fn reader_case<L: Sentences>(lib: &L, rng: &mut Rng, tally: &mut Tally, text: &[u8]) {
    let shown = || shown_text(text);
    let expected = second::read_sentence(text);
    let lent = text.to_vec();
    let got = lib.read_sentence(&lent);
    agree("read sentence", &expected, &got, shown);
    agree("read sentence: the lent text", &text, &lent.as_slice(), shown);
    tally.count(&expected);
    if let Ok(sentence) = got {
        let before = output(rng, text.len() + 5);
        let mut after = before.clone();
        let answer = lib.write_sentence(&sentence, &mut after);
        agree("write what was read", &Ok(text.len()), &answer, shown);
        output_after("write what was read", &answer, text, &before, &after, shown);
    }
}

/// Compares writing on `cases` random records and outputs of every length about
/// the right one; what is written is read again and gives the same sentence.
pub fn compare_sentence_writer<L: Sentences>(lib: &L, cases: usize, seed: u64) -> Tally {
    let mut rng = Rng::new(seed);
    let mut tally = Tally::new("sentence writer");
    for _ in 0..cases {
        any_write(lib, &mut rng, &mut tally);
    }
    tally.require(&[6, 7, 14]);
    tally
}

/// One random record.
pub(super) fn any_write<L: Sentences>(lib: &L, rng: &mut Rng, tally: &mut Tally) {
    let record = sentence::record(rng);
    writer_case(lib, rng, tally, &record);
}

/// One record: written, and if accepted read again.
fn writer_case<L: Sentences>(lib: &L, rng: &mut Rng, tally: &mut Tally, record: &Sentence) {
    let shown = || format!("  record {record:?}\n");
    let exact = second::write_sentence(record, &mut [0; 400]).unwrap_or(400);
    let length = match rng.below(8) {
        0 => rng.pick(&[0, 1, exact - 1]),
        1 => exact + rng.between(1, 100),
        2 => 400,
        _ => exact,
    };
    let before = output(rng, length);
    let mut written = before.clone();
    let expected = second::write_sentence(record, &mut written);
    let (lent, mut after) = (record.clone(), before.clone());
    let got = lib.write_sentence(&lent, &mut after);
    agree("write sentence", &expected, &got, shown);
    agree("write sentence: the lent record", record, &lent, shown);
    output_after("write sentence", &expected, &written, &before, &after, shown);
    tally.count(&expected);
    if let Ok(length) = got {
        agree("read what was written", &Ok(cleared(record)), &lib.read_sentence(&after[..length]), shown);
    }
}

/// A record without what is no part of its sentence.
fn cleared(record: &Sentence) -> Sentence {
    let mut sentence = record.clone();
    sentence.nodes[record.count.min(NODES)..].fill(Node::True);
    sentence.exists[record.letters.min(LETTERS)..].fill(false);
    sentence
}

#[cfg(test)]
mod tests {
    use super::*;

    #[test]
    fn the_text_of_every_form_is_right() {
        assert!(second::read_sentence(FORMS).is_ok());
    }
}
