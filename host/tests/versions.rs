//! The two versions of a model file: the proved library beside the second program on both sides of every limit, on the
//! empty rows that the document's words decide, and on files with empty rows beside their filled files.

use twolsken_host::compare::{compare_empty_rows, compare_filled, compare_version_limits};
use twolsken_host::proved::Proved;

#[test]
fn both_sides_of_each_limit() {
    let tally = compare_version_limits(&Proved);
    println!("{tally}\n  {:?}", tally.reach);
    tally.require_each(40, &[4, 5]);
}

#[test]
fn empty_rows_count_as_weight_d_to_the_state_itself() {
    compare_empty_rows(&Proved);
}

/// The grouping 0, 1, 2, .. gives the filled file. A random sentence on the file and on the filled file: equal verdicts,
/// numerators and denominators at every tuple, by the second program and by the library.
#[test]
fn an_empty_row_means_what_the_filled_row_says() {
    let tally = compare_filled(&Proved, 3_000, 33);
    println!("{tally}\n  {:?}", tally.reach);
    tally.reach.require_versions(100);
    assert!(tally.holds >= 500 && tally.fails >= 500, "{tally}");
    assert!(tally.numerators >= 20_000 && tally.reach.between >= 2_000, "{tally}: {:?}", tally.reach);
    assert!(tally.reach.every >= 1_000, "only {} files were asked at every tuple", tally.reach.every);
}
