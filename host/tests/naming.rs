//! Paths that name some of the variables: the proved library beside the second program, and beside the meaning in which all
//! variables step.

use twolsken_host::compare::{
    compare_naming, compare_naming_examples, compare_nothing, compare_row_10, Tally,
};
use twolsken_host::inputs::naming::Kind;
use twolsken_host::proved::Proved;

/// Pairs of one kind: answered, by both verdicts and for every v, their numerators neither 0 nor the denominator often.
fn naming(kind: Kind, cases: usize, seed: u64) -> Tally {
    let tally = compare_naming(&Proved, kind, cases, seed);
    println!("{kind:?}: {tally}\n  {:?}", tally.reach);
    assert_eq!(tally.answered, cases as u64, "{tally}");
    assert!(tally.holds >= 1_000 && tally.fails >= 1_000, "{tally}");
    assert!(tally.numerators >= 50_000 && tally.reach.between >= 4_000, "{tally}: {:?}", tally.reach);
    assert!(tally.reach.letters[3] + tally.reach.letters[4] >= cases as u64 / 2, "{:?}", tally.reach);
    tally.reach.require_versions(50);
    tally
}

#[test]
fn the_examples() {
    compare_naming_examples(&Proved);
}

#[test]
fn paths_that_name_any_of_the_variables() {
    let named = naming(Kind::Any, 6_000, 111).reach.named;
    named.require_each(500);
    assert!(named.beside_base >= 5_000 && named.alone >= 10_000 && named.listed >= 2_500, "{named:?}");
    assert!(named.again >= 5_000 && named.nothing.iter().flatten().all(|&count| count >= 200), "{named:?}");
}

#[test]
fn paths_inside_paths_that_name_more() {
    let named = naming(Kind::Inside, 6_000, 112).reach.named;
    named.require_each(500);
    assert!(named.fewer >= 8_000 && named.through >= 4_000 && named.alone >= 15_000, "{named:?}");
    assert!(named.beside_base >= 5_000 && named.listed >= 2_500, "{named:?}");
}

#[test]
fn windows_that_all_variables_stepping_would_refuse() {
    let named = naming(Kind::Wide, 6_000, 113).reach.named;
    named.require_each(200);
    assert!(named.base_refused == 6_000 && named.alone >= 9_000 && named.listed >= 1_000, "{named:?}");
}

#[test]
fn row_10_on_both_sides() {
    let tally = compare_row_10(&Proved, 114);
    println!("{tally}\n  {:?}", tally.reach);
    assert!(tally.answered >= 7_000 && tally.refused[10] >= 2_000, "{tally}");
    assert!(tally.reach.named.base_refused >= 2_000 && tally.reach.bottom_at_end >= 500, "{:?}", tally.reach);
    tally.reach.named.require_each(200);
}

#[test]
fn paths_that_name_nothing() {
    let tally = compare_nothing(&Proved, 115);
    println!("{tally}\n  {:?}", tally.reach);
    assert_eq!(tally.cases(), tally.answered, "{tally}");
    assert!(tally.reach.named.nothing.iter().flatten().all(|&count| count >= 200), "{:?}", tally.reach);
    assert!(tally.reach.window_60 >= 2_000 && tally.reach.named.base_refused >= 2_000, "{:?}", tally.reach);
}
