//! Prints the least stack, in steps of 4 KiB, on which each call answers the deepest sentences, and on which a thread that asks
//! nothing runs. Each is tried in a process of its own, since a stack that is too small ends it.
//!
//!     cargo run --release --example stack

use std::process::Command;
use twolsken::{numerator, read_sentence, verdict, Refusal, Verdict, WORK_AREA};
use twolsken_host::inputs::model::{file_of, model_with};
use twolsken_host::inputs::{extreme, Rng};

/// The calls that are measured.
const CALLS: [&str; 4] = ["nothing", "read sentence", "verdict", "numerator"];
/// The goal, in KiB.
const GOAL: usize = 256;
/// The step, in KiB.
const STEP: usize = 4;

/// The deepest texts: of 400 bytes for the reader, and of 64 nodes for the calls that evaluate.
fn texts(call: &str) -> Vec<Vec<u8>> {
    let not = format!("A.{}T", "!".repeat(397));
    let sums = format!("A.={}", "+".repeat(397));
    let paths = format!("A.{}T", "=PX".repeat(132));
    match call {
        "nothing" => vec![Vec::new()],
        "read sentence" => [not, sums, paths].map(String::into_bytes).into(),
        _ => extreme::deepest(),
    }
}

/// The number of a refusal.
fn number(refusal: Refusal) -> u64 {
    refusal.number().into()
}

/// One call on one text, with a model of three states that is lent beforehand.
fn answer(call: &str, file: &[u8], text: &[u8], work: &mut [u64]) -> u64 {
    match call {
        "nothing" => 0,
        "read sentence" => read_sentence(text).map_or_else(number, |sentence| sentence.nodes.len() as u64),
        "verdict" => verdict(file, text, work).map_or_else(number, |said| u64::from(said == Verdict::Holds)),
        _ => numerator(file, text, &[0], 0, work).map_or_else(number, |fraction| fraction.numerator),
    }
}

/// Runs one call on a thread with a stack of so many KiB, in this process.
fn run(call: &'static str, text: Vec<u8>, kib: usize) {
    let file = file_of(&model_with(&mut Rng::new(1), 3, 1, 2));
    let mut work = vec![0; WORK_AREA];
    let ask = move || answer(call, &file, &text, &mut work);
    let thread = std::thread::Builder::new().stack_size(kib << 10).spawn(ask);
    println!("{}", thread.expect("a thread").join().expect("an answer"));
}

/// The least stack, in KiB, on which a process of its own answers.
fn least(call: usize, text: usize) -> usize {
    let program = std::env::current_exe().expect("this program");
    let fits = |kib: usize| {
        let words = [call, text, kib].map(|word| word.to_string());
        Command::new(&program).args(words).output().expect("a run").status.success()
    };
    let (mut low, mut high) = (0, 1 << 15);
    while high - low > STEP {
        let middle = (low + high) / 2 / STEP * STEP;
        if fits(middle) {
            high = middle;
        } else {
            low = middle;
        }
    }
    high
}

/// Three numbers ask for one run: the call, the text and the KiB. Without them every call is measured.
fn main() {
    let words: Vec<usize> = std::env::args().skip(1).filter_map(|word| word.parse().ok()).collect();
    if let [call, text, kib] = words[..] {
        return run(CALLS[call], texts(CALLS[call]).swap_remove(text), kib);
    }
    for (place, call) in CALLS.iter().enumerate() {
        let sizes: Vec<usize> = (0..texts(call).len()).map(|text| least(place, text)).collect();
        let most = sizes.iter().max().expect("a text");
        let goal = if *most < GOAL { "met" } else { "not met" };
        println!("{call:<14} at most {most:>4} KiB, under {GOAL} KiB: {goal}; by text {sizes:?}");
    }
}
