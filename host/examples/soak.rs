//! Runs every exported call on random input beside the second program for so many seconds, and prints the cases a second and
//! how often each call gave each answer. Lent memory is checked in every case. At the first difference the case is printed
//! and the program ends with 1.
//!
//!     cargo run --release --example soak -- SECONDS SEED

use std::panic::{catch_unwind, AssertUnwindSafe};
use std::process::exit;
use std::time::{Duration, Instant};
use twolsken_host::compare::{Area, Tally};
use twolsken_host::inputs::Rng;
use twolsken_host::proved::Proved;

/// Cases of each call in a round: fewer of those that take longer.
fn round_of(area: Area) -> usize {
    match area {
        Area::Verdict => 200,
        Area::Numerator => 10,
        _ => 100,
    }
}

/// One call's cases of a round; ends the program at a difference.
fn round(area: Area, seed: u64, tally: &mut Tally) {
    let mut rng = Rng::new(seed);
    let cases = || (0..round_of(area)).for_each(|_| area.case(&Proved, &mut rng, tally));
    if catch_unwind(AssertUnwindSafe(cases)).is_err() {
        eprintln!("{area:?} differs: the case is above, in the round of seed {seed}");
        exit(1);
    }
}

/// Rounds until the time is over, then the table.
fn main() {
    let words: Vec<u64> = std::env::args().skip(1).filter_map(|word| word.parse().ok()).collect();
    let (seconds, seed) = (words.first().copied().unwrap_or(10), words.get(1).copied().unwrap_or(1));
    let mut tallies = Area::ALL.map(|(area, name, _)| (area, Tally::new(name), Duration::ZERO));
    let mut seeds = Rng::new(seed);
    let start = Instant::now();
    while start.elapsed() < Duration::from_secs(seconds) {
        for (area, tally, time) in &mut tallies {
            let began = Instant::now();
            round(*area, seeds.bits(), tally);
            *time += began.elapsed();
        }
    }
    for (_, tally, time) in &tallies {
        println!("{tally}; {:.0} cases a second", tally.cases() as f64 / time.as_secs_f64());
    }
    let all: u64 = tallies.iter().map(|(_, tally, _)| tally.cases()).sum();
    let each = all as f64 / start.elapsed().as_secs_f64();
    println!("seed {seed}, {seconds} s: {all} cases, {each:.0} a second, no difference");
}
