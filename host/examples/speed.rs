//! Prints, for each call, the time of the proved library over that of the second program, which is plain Rust: both on the
//! same inputs, in turns, in one run. The least of seven turns counts. A benchmark, and no test: it asserts no time.

use std::hint::black_box;
use std::time::{Duration, Instant};
use twolsken_host::compare::{Merges, Models, Second, Sentences};
use twolsken_host::inputs::{grouping, model, sentence, Rng};
use twolsken_host::proved::Proved;
use twolsken_host::second;

/// How many inputs each call gets in a turn.
const INPUTS: usize = 2_000;

/// The time of one pass over the inputs.
fn pass<I, R>(inputs: &[I], call: &mut impl FnMut(&I) -> R) -> Duration {
    let start = Instant::now();
    for input in inputs {
        black_box(call(black_box(input)));
    }
    start.elapsed()
}

/// Measures both programs in turns and prints the call's line.
fn line<I, R>(name: &str, inputs: &[I], mut proved: impl FnMut(&I) -> R, mut plain: impl FnMut(&I) -> R) {
    let (mut ours, mut theirs) = (Duration::MAX, Duration::MAX);
    for _ in 0..7 {
        ours = ours.min(pass(inputs, &mut proved));
        theirs = theirs.min(pass(inputs, &mut plain));
    }
    let each = |time: Duration| time.as_secs_f64() * 1e6 / inputs.len() as f64;
    let ratio = ours.as_secs_f64() / theirs.as_secs_f64();
    println!("{name:<16} {:>9.2} µs {:>9.2} µs   ratio {ratio:.2}", each(ours), each(theirs));
}

fn main() {
    let mut rng = Rng::new(7);
    let models: Vec<_> = (0..INPUTS).map(|_| model::model_with(&mut rng, 32, 16, 65_535)).collect();
    let files: Vec<_> = models.iter().map(model::file_of).collect();
    let texts: Vec<_> = (0..INPUTS).map(|_| sentence::any_sentence(&mut rng).text()).collect();
    let sentences: Vec<_> = texts.iter().filter_map(|text| second::read_sentence(text).ok()).collect();
    let merges: Vec<_> = (0..INPUTS)
        .map(|_| {
            let (full, groups) = grouping::planted(&mut rng, 32);
            (model::file_of(&full), groups)
        })
        .collect();
    let (mut a, mut b) = ([0u8; 3_072], [0u8; 3_072]);
    println!("{:<16} {:>12} {:>12}", "call", "proved", "plain Rust");
    line("read model", &files, |f| Proved.read_model(f), |f| Second.read_model(f));
    line("write model", &models, |m| Proved.write_model(m, &mut a), |m| Second.write_model(m, &mut b));
    line("read sentence", &texts, |t| Proved.read_sentence(t), |t| Second.read_sentence(t));
    line(
        "write sentence",
        &sentences,
        |s| Proved.write_sentence(s, &mut a),
        |s| Second.write_sentence(s, &mut b),
    );
    line("merge", &merges, |(f, g)| Proved.merge(f, g, &mut a), |(f, g)| Second.merge(f, g, &mut b));
}
