//! Read model and write model of the proved library beside the second program.

use twolsken_host::compare::{compare_model_reader, compare_model_writer};
use twolsken_host::proved::Proved;

#[test]
fn the_reader_agrees_with_second() {
    let tally = compare_model_reader(&Proved, 130_000, 11);
    println!("{tally}");
    tally.require_each(14_000, &[2, 3, 4, 5]);
    tally.reach.require_versions(1_500);
}

#[test]
fn the_writer_agrees_with_second() {
    let tally = compare_model_writer(&Proved, 80_000, 12);
    println!("{tally}");
    tally.require_each(2_500, &[4, 5, 14]);
    tally.reach.require_versions(1_000);
}
