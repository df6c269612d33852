//! Merge of the proved library beside the second program.

use twolsken_host::compare::{compare_kept, compare_merge};
use twolsken_host::proved::Proved;

#[test]
fn merge_agrees_with_second() {
    let tally = compare_merge(&Proved, 100_000, 31);
    println!("{tally}");
    tally.require_each(400, &[2, 3, 4, 5]);
    tally.require_each(5_000, &[12, 13, 14]);
    tally.reach.require_versions(2_000);
    assert!(tally.reach.mixed.iter().all(|&count| count >= 1_000), "{:?}", tally.reach);
}

/// A random sentence on the full and on the merged model: equal verdicts, numerators and denominators, by the second program
/// and by the library.
#[test]
fn merging_keeps_verdicts_and_numerators() {
    let tally = compare_kept(&Proved, 15_000, 32);
    println!("{tally}\n  {:?}", tally.reach);
    assert!(tally.holds >= 2_000 && tally.fails >= 2_000, "{tally}");
    assert!(tally.numerators >= 100_000 && tally.reach.between >= 10_000, "{tally}: {:?}", tally.reach);
    assert!(tally.reach.every >= 5_000, "only {} merges were asked at every tuple", tally.reach.every);
    assert!(tally.reach.letters[1..].iter().all(|&count| count >= 200), "{:?}", tally.reach);
    tally.reach.require_versions(500);
    tally.reach.named.require_each(20);
    assert!(tally.reach.mixed[0] >= 500, "{:?}", tally.reach);
}
