//! Verdict and numerator of the proved library beside the second program.

use twolsken::{numerator, verdict, Refusal, WORK_AREA};
use twolsken_host::compare::{
    compare_extreme, compare_full, compare_numerator, compare_row_15, compare_verdict, compare_ways, Tally,
};
use twolsken_host::inputs::extreme::{deepest, Kind};
use twolsken_host::inputs::model::{file_of, model_with};
use twolsken_host::inputs::Rng;
use twolsken_host::proved::Proved;

/// The rows of verdict.
const ROWS: [usize; 11] = [1, 2, 3, 4, 5, 6, 7, 8, 9, 10, 11];

/// Half of the random verdicts: every refusal and both verdicts often, every number of letters, every N.
fn random_verdicts(seed: u64) {
    let tally = compare_verdict(&Proved, 105_000, seed);
    println!("{tally}\n  {:?}", tally.reach);
    tally.require_each(900, &ROWS);
    assert!(tally.holds >= 20_000 && tally.fails >= 20_000, "{tally}");
    assert!(tally.reach.letters[1..].iter().all(|&count| count >= 5_000), "{tally}");
    assert!(tally.reach.states.iter().all(|&count| count >= 50), "{:?}", tally.reach);
    assert!(tally.reach.tuples_1024 >= 100 && tally.reach.tuples_near >= 100, "{:?}", tally.reach);
    assert!(tally.reach.window_60 >= 100 && tally.reach.nodes_60 >= 50, "{:?}", tally.reach);
    tally.reach.require_versions(2_000);
    tally.reach.named.require_each(800);
}

#[test]
fn verdicts_agree_with_second() {
    random_verdicts(41);
}

#[test]
fn other_verdicts_agree_with_second() {
    random_verdicts(42);
}

/// Half of the random numerators: every path at every tuple of a good part of the pairs, and every refusal.
fn random_numerators(seed: u64) {
    let tally = compare_numerator(&Proved, 10_000, seed);
    println!("{tally}\n  {:?}", tally.reach);
    tally.require_each(50, &ROWS);
    tally.require_each(2_000, &[15]);
    assert!(tally.answered >= 60_000 && tally.reach.between >= 8_000, "{tally}: {:?}", tally.reach);
    assert!(tally.reach.every >= 2_500, "only {} pairs were asked at every tuple", tally.reach.every);
    assert!(tally.reach.below_zero >= 100, "{:?}", tally.reach);
    tally.reach.require_versions(200);
    tally.reach.named.require_each(50);
}

#[test]
fn numerators_agree_with_second() {
    random_numerators(43);
}

#[test]
fn other_numerators_agree_with_second() {
    random_numerators(44);
}

#[test]
fn row_15_on_both_sides() {
    let tally = compare_row_15(&Proved, 1_500, 45);
    println!("{tally}");
    assert!(tally.answered >= 4_000 && tally.refused[15] >= 15_000, "{tally}");
}

/// How many pairs of each extreme kind are asked.
const EXTREMES: usize = 400;

/// Pairs of one extreme kind: refused by its number, or nearly all answered, and by both verdicts.
fn extreme(kind: Kind, seed: u64) -> Tally {
    let tally = compare_extreme(&Proved, kind, EXTREMES, seed);
    println!("{kind:?}: {tally}\n  {:?}", tally.reach);
    let most = EXTREMES as u64 * 9 / 10;
    match kind {
        Kind::TuplesBeyond => assert!(tally.refused[11] >= most, "{kind:?}: {tally}"),
        Kind::EndBeyond => assert!(tally.refused[10] >= most, "{kind:?}: {tally}"),
        _ => {
            assert!(tally.answered >= most, "{kind:?}: {tally}");
            assert!(tally.holds >= 50 && tally.fails >= 50, "{kind:?}: {tally}");
            assert!(tally.reach.tuples_1024 + tally.reach.tuples_near > 0 || kind == Kind::End, "{kind:?}");
            let empty_rows: u64 = tally.reach.version_1[1..].iter().sum();
            assert!(empty_rows >= 20, "{kind:?}: {:?}", tally.reach);
        }
    }
    tally
}

#[test]
fn the_most_tuples_and_more() {
    let tally = extreme(Kind::Tuples, 51);
    assert!(tally.reach.tuples_1024 >= 80 && tally.reach.tuples_near >= 100, "{:?}", tally.reach);
    extreme(Kind::TuplesBeyond, 52);
}

#[test]
fn the_longest_windows() {
    let tally = extreme(Kind::LongWindow, 53);
    assert!(tally.reach.window_60 >= 200 && tally.reach.every >= 200, "{:?}", tally.reach);
}

#[test]
fn the_greatest_numbers_and_greater() {
    let tally = extreme(Kind::End, 54);
    assert!(tally.reach.top_at_end >= 100 && tally.reach.bottom_at_end >= 300, "{:?}", tally.reach);
    extreme(Kind::EndBeyond, 55);
}

#[test]
fn expressions_below_zero() {
    let tally = extreme(Kind::BelowZero, 56);
    assert!(tally.reach.below_zero >= 300, "{:?}", tally.reach);
}

#[test]
fn deep_formulas() {
    for (kind, seed) in [(Kind::Negations, 57), (Kind::Conjunctions, 58)] {
        let tally = extreme(kind, seed);
        assert!(tally.reach.nodes_60 >= 200, "{kind:?}: {:?}", tally.reach);
    }
}

#[test]
fn leaning_sums_of_many_probabilities() {
    for (kind, seed) in [(Kind::LeftSum, 59), (Kind::RightSum, 60), (Kind::Constants, 61)] {
        let tally = extreme(kind, seed);
        assert!(tally.reach.nodes_60 >= 100, "{kind:?}: {:?}", tally.reach);
    }
}

#[test]
fn paths_inside_paths() {
    for (kind, seed) in [(Kind::Untils, 62), (Kind::Nexts, 63), (Kind::Pairwise, 64)] {
        let tally = extreme(kind, seed);
        assert!(tally.reach.between >= 500 && tally.reach.every >= 200, "{kind:?}: {:?}", tally.reach);
    }
}

#[test]
fn every_numerator_of_the_largest_questions() {
    let tally = compare_full(&Proved, 24, 65);
    println!("{tally}\n  {:?}", tally.reach);
    assert!(tally.reach.every == 24 && tally.reach.every_full == 6, "{:?}", tally.reach);
    assert!(tally.answered >= 20_000 && tally.reach.between >= 2_000, "{tally}: {:?}", tally.reach);
    assert!(tally.reach.version_1[1..].iter().sum::<u64>() >= 5, "{tally}");
}

#[test]
fn both_ways_of_second_agree() {
    let tally = compare_ways(6_000, 66);
    println!("{tally}\n  {:?}", tally.reach);
    assert!(tally.reach.letters[1..].iter().all(|&count| count >= 200), "{:?}", tally.reach);
    assert!(tally.holds >= 1_000 && tally.fails >= 1_000 && tally.numerators >= 30_000, "{tally}");
    tally.reach.require_versions(100);
    assert!(tally.reach.below_zero >= 100, "{:?}", tally.reach);
}

/// Evaluation goes by functions that call each other with the nodes falling: the deepest sentences of 64 nodes are answered
/// on a thread with 256 KiB of stack. (A stack that is too small ends the whole program.)
#[test]
fn the_deepest_sentences_need_little_stack() {
    for (place, text) in deepest().into_iter().enumerate() {
        let ask = move || {
            let file = file_of(&model_with(&mut Rng::new(1), 3, 1, 2));
            let mut work = vec![0; WORK_AREA];
            (verdict(&file, &text, &mut work), numerator(&file, &text, &[0], 0, &mut work))
        };
        let thread = std::thread::Builder::new().stack_size(256 << 10).spawn(ask);
        let (said, asked) = thread.expect("a thread").join().expect("an answer");
        assert!(said.is_ok(), "sentence {place}: {said:?}");
        assert_eq!(
            asked.err(),
            if place == 0 { Some(Refusal::TupleOrPath) } else { None },
            "sentence {place}"
        );
    }
}
