//! Untils watched for longer, and the runs that a path does not take: the proved library beside the request's words and beside
//! the second program.

use twolsken_host::compare::{compare_sums, compare_watch_examples, compare_watches, Tally, Watched};
use twolsken_host::inputs::watch::Kind;
use twolsken_host::proved::Proved;

/// Untils of one kind, both versions of the model and both outcomes among them.
fn watches(kind: Kind, cases: usize, seed: u64) -> (Tally, Watched) {
    let (tally, watched) = compare_watches(&Proved, kind, cases, seed);
    println!("{kind:?}: {tally}\n  {watched:?}\n  {:?}", tally.reach);
    assert_eq!(watched.answered[0] + watched.set_aside, cases as u64, "{watched:?}");
    assert_eq!(watched.answered.iter().sum::<u64>(), watched.outcomes.iter().sum(), "{watched:?}");
    let empty_rows: u64 = tally.reach.version_1[1..].iter().sum();
    assert!(tally.reach.version_0 >= 10 && empty_rows >= 10, "{:?}", tally.reach);
    (tally, watched)
}

#[test]
fn the_examples() {
    compare_watch_examples(&Proved);
}

#[test]
fn longer_watches_in_any_sentence() {
    let (tally, watched) = watches(Kind::Any, 2_000, 121);
    assert!(watched.answered.iter().all(|&count| count >= 1_900), "{watched:?}");
    assert!(watched.variables.iter().all(|&count| count >= 150), "{watched:?}");
    assert!(watched.from.iter().all(|&count| count >= 700), "{watched:?}");
    assert!(watched.inside.iter().all(|&count| count >= 1_500) && watched.around >= 600, "{watched:?}");
    assert!(watched.outcomes[0] >= 300 && watched.outcomes[1] >= 2_500, "{watched:?}");
    assert!(watched.more >= 2_000 && watched.equal.iter().all(|&count| count >= 300), "{watched:?}");
    assert!(watched.raised.iter().all(|&count| count >= 5_000) && watched.to_60 >= 100, "{watched:?}");
    assert!(tally.reach.letters[1..].iter().all(|&count| count >= 400), "{:?}", tally.reach);
    assert!(tally.reach.every >= 1_500, "only {} at every tuple", tally.reach.every);
    tally.reach.require_versions(80);
}

#[test]
fn longer_watches_of_runs_that_match_later() {
    let (tally, watched) = watches(Kind::Later, 2_000, 122);
    assert!(watched.answered.iter().all(|&count| count >= 1_900), "{watched:?}");
    assert!(watched.variables[1..].iter().all(|&count| count >= 150), "{watched:?}");
    assert!(watched.from.iter().all(|&count| count >= 700), "{watched:?}");
    assert!(watched.inside.iter().all(|&count| count >= 1_000) && watched.around >= 1_000, "{watched:?}");
    assert!(watched.outcomes.iter().all(|&count| count >= 1_000), "{watched:?}");
    assert!(watched.more >= 8_000 && watched.equal.iter().all(|&count| count >= 800), "{watched:?}");
    assert!(watched.raised.iter().all(|&count| count >= 5_000) && watched.to_60 >= 60, "{watched:?}");
    assert!(tally.reach.every >= 2_500, "only {} at every tuple", tally.reach.every);
    tally.reach.require_versions(80);
}

#[test]
fn longer_watches_near_rows_7_and_10() {
    let (tally, watched) = watches(Kind::Ends, 2_000, 123);
    assert!(watched.answered.iter().all(|&count| count >= 600) && watched.set_aside >= 600, "{watched:?}");
    assert!(tally.refused[7] >= 200 && tally.refused[10] >= 500, "{tally}");
    assert!(watched.variables[..4].iter().all(|&count| count >= 30), "{watched:?}");
    assert!(watched.more >= 300 && watched.equal.iter().all(|&count| count >= 200), "{watched:?}");
    assert!(watched.to_60 >= 150 && watched.from.iter().all(|&count| count >= 500), "{watched:?}");
    assert!(tally.reach.top_at_end >= 40 && tally.reach.bottom_at_end >= 100, "{:?}", tally.reach);
}

#[test]
fn longer_watches_of_about_1024_tuples() {
    let (tally, watched) = watches(Kind::Full, 24, 124);
    assert!(tally.reach.tuples_1024 + tally.reach.tuples_near >= 40, "{:?}", tally.reach);
    assert!(tally.reach.every >= 20 && tally.reach.every_full >= 4, "{:?}", tally.reach);
    assert!(watched.more >= 1_000 && watched.equal.iter().all(|&count| count >= 30), "{watched:?}");
    assert!(watched.raised.iter().all(|&count| count >= 1_000), "{watched:?}");
}

/// The numerator is the weight of the runs taken; with the weight of the runs not taken it makes the denominator.
#[test]
fn runs_taken_and_not_taken_add_up() {
    let (tally, summed) = compare_sums(&Proved, 2_000, 125);
    println!("{tally}\n  {summed:?}\n  {:?}", tally.reach);
    assert_eq!(tally.cases(), tally.answered, "{tally}");
    assert!(summed.nexts.iter().all(|&count| count >= 50), "{summed:?}");
    assert!(summed.untils.iter().all(|&count| count >= 100), "{summed:?}");
    assert!(summed.tuples[0] >= 40_000 && summed.tuples[2] >= 40_000, "{summed:?}");
    assert!(summed.tuples[1] >= 8_000, "{summed:?}");
    tally.reach.require_versions(50);
}
