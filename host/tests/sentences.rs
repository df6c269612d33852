//! Read sentence and write sentence of the proved library beside the second program.

use twolsken::{read_sentence, Refusal};
use twolsken_host::compare::{compare_sentence_reader, compare_sentence_writer};
use twolsken_host::proved::Proved;

#[test]
fn the_reader_agrees_with_second() {
    let tally = compare_sentence_reader(&Proved, 300_000, 21);
    println!("{tally}");
    tally.require_each(10_000, &[6, 7, 8]);
}

#[test]
fn the_writer_agrees_with_second() {
    let tally = compare_sentence_writer(&Proved, 100_000, 22);
    println!("{tally}");
    tally.require_each(3_000, &[6, 7, 14]);
}

/// Reading goes by functions that call each other with the remaining text falling: the deepest texts of 400 bytes are
/// answered on a thread with 256 KiB of stack. (A stack that is too small ends the whole program.)
#[test]
fn the_deepest_texts_need_little_stack() {
    let texts = [
        (format!("A.{}T", "!".repeat(397)), Refusal::TooManyNodes),
        (format!("A.={}", "+".repeat(397)), Refusal::Grammar),
        (format!("A.{}T", "=PX".repeat(132)), Refusal::Grammar),
    ];
    for (text, refusal) in texts {
        let read = move || read_sentence(text.as_bytes()).err();
        let thread = std::thread::Builder::new().stack_size(256 << 10).spawn(read);
        assert_eq!(thread.expect("a thread").join().expect("an answer"), Some(refusal));
    }
}
