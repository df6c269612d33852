//! Times verdicts of the library beside two plain Rust programs, in one run and by turns: (a) steps by the joint weights of the v
//! variables that a path names, T × N^v products; (b) steps one of them at a time, v × N × T products. Each call reads the file
//! and the text. The median of many runs counts. A benchmark, and no test: it prints whether each goal is met, and asserts no time.
//!
//! Each question is asked with paths that name variables 1 and n, all n, and one. Then follows how many times as long the library
//! takes where all n are named as where one is, for the whole call and for its steps alone: the time of the same call with windows
//! 0..0 is taken off. Before T-02 all n stepped in either case.
//!
//!     cargo run --release --example verdicts

use std::hint::black_box;
use std::time::Instant;
use twolsken_host::compare::Questions;
use twolsken_host::inputs::model::{file_of, model_with};
use twolsken_host::inputs::Rng;
use twolsken_host::plain::{Plain, Step};
use twolsken_host::proved::Proved;
use twolsken_host::second;
use twolsken_host::second::meaning::ENOUGH;

/// N, n, D and k2 of each question.
const QUESTIONS: [(u32, usize, u32, u32); 4] = [(32, 1, 4, 15), (32, 2, 2, 15), (10, 3, 2, 10), (5, 4, 2, 7)];
/// The goals: the library's time over (b)'s at most, and (a)'s over the library's at least, at 32 states and two letters.
const GOALS: (f64, f64) = (1.25, 8.0);
/// About how many seconds the runs of one row take.
const SECONDS: f64 = 3.0;

/// Which variables the paths of a row name.
#[derive(Clone, Copy, Debug, PartialEq, Eq)]
enum Names {
    /// Variables 1 and n, or the latter alone.
    Ends,
    /// All n.
    All,
    /// One, in each pair of untils another.
    One,
}

/// The rows of a question with so many letters: what is named, and the number of untils. Ten untils that name four variables each
/// would have more than 64 nodes.
fn rows(letters: usize) -> Vec<(Names, usize)> {
    let mut rows = vec![(Names::Ends, 1), (Names::Ends, 10)];
    if letters > 1 {
        rows.extend([(Names::All, 1), (Names::All, 6), (Names::One, 1), (Names::One, 6)]);
    }
    rows
}

/// The conjunction of a label of some variables.
fn each(label: char, variables: &[usize]) -> String {
    let labels: String = variables.iter().map(|variable| format!("{label}{variable}")).collect();
    "&".repeat(variables.len() - 1) + &labels
}

/// The two formulas of an until that names some variables.
fn formulas(variables: &[usize]) -> String {
    let half = variables.len().div_ceil(2);
    let (front, back) = (&variables[..half], &variables[variables.len() - half..]);
    format!("!{}{}", each('a', front), each('b', back))
}

/// A sentence with one until, or with several that are compared pairwise. Each comparison holds at every tuple, so that none of
/// the others can be left out.
fn sentence(letters: usize, to: u32, (names, untils): (Names, usize)) -> Vec<u8> {
    let all: Vec<usize> = (1..=letters).collect();
    let named = |pair: usize| match names {
        Names::Ends => vec![1, letters],
        Names::All => all.clone(),
        Names::One => vec![letters - pair % letters],
    };
    let prefix = &"AEAE"[..letters];
    if untils == 1 {
        return format!("{prefix}.GPU0,{to}:{}#0/1;", formulas(&named(0))).into_bytes();
    }
    let pair = |pair: usize| {
        let formulas = formulas(&named(pair));
        let wider = if names == Names::Ends { format!("Tb{letters}") } else { formulas.clone() };
        format!("LPU{},{to}:{formulas}PU0,{to}:{wider}", (pair as u32).min(to))
    };
    let pairs: String = (0..untils / 2).map(pair).collect();
    format!("{prefix}.{}{pairs}", "&".repeat(untils / 2 - 1)).into_bytes()
}

/// A question and the programs that answer it.
struct Bench {
    file: Vec<u8>,
    text: Vec<u8>,
    work: Vec<u64>,
    plain: [Plain; 2],
}

impl Bench {
    /// One answer: 0 is the library, 1 and 2 are the plain programs (a) and (b).
    fn answer(&mut self, program: usize) -> Result<bool, u8> {
        let (file, text) = (black_box(&self.file[..]), black_box(&self.text[..]));
        match program {
            0 => Proved.verdict(file, text, &mut self.work),
            _ => self.plain[program - 1].verdict(file, text, &mut self.work),
        }
    }

    /// The microseconds of one answer.
    fn time(&mut self, program: usize) -> f64 {
        let start = Instant::now();
        black_box(self.answer(program)).expect("an answer");
        start.elapsed().as_secs_f64() * 1e6
    }

    /// Stops unless all programs answer as the second program does.
    fn check(&mut self) {
        let expected = second::verdict(&self.file, &self.text, &mut self.work);
        assert!(expected.is_ok(), "{}: {expected:?}", String::from_utf8_lossy(&self.text));
        for program in 0..3 {
            assert_eq!(expected, self.answer(program), "program {program}");
        }
    }

    /// The median microseconds of each program, run by turns.
    fn medians(&mut self) -> [f64; 3] {
        let once: f64 = (0..3).map(|program| self.time(program)).sum();
        let runs = ((SECONDS * 1e6 / once) as usize).clamp(11, 2_001) | 1;
        let mut times = [const { Vec::new() }; 3];
        for run in 0..runs {
            for turn in 0..3 {
                let program = (run + turn) % 3;
                times[program].push(self.time(program));
            }
        }
        times.map(|mut list| {
            list.sort_by(f64::total_cmp);
            list[list.len() / 2]
        })
    }
}

/// Whether a goal is met.
fn met(goal: bool) -> &'static str {
    if goal {
        "met"
    } else {
        "not met"
    }
}

/// The benchmark of a text.
fn bench(file: &[u8], text: Vec<u8>) -> Bench {
    let plain = [Plain::new(Step::Joint), Plain::new(Step::Single)];
    let mut bench = Bench { file: file.to_vec(), text, work: vec![1; ENOUGH], plain };
    bench.check();
    bench
}

/// One row of the table; gives the library's median, and what it is without steps.
fn row(
    (n, letters, d, to): (u32, usize, u32, u32),
    file: &[u8],
    (names, untils): (Names, usize),
) -> [f64; 2] {
    let [library, joint, single] = bench(file, sentence(letters, to, (names, untils))).medians();
    let [unstepped, ..] = bench(file, sentence(letters, 0, (names, untils))).medians();
    let (over, under) = (library / single, joint / library);
    let names = format!("{names:?}").to_lowercase();
    print!(
        "{n:>2} {letters} {d} {to:>2} {names:<5} {untils:>6} | {library:>10.1} {joint:>10.1} {single:>10.1} "
    );
    print!("| {over:>7.2}, {:<8} | {under:>7.2}", met(over <= GOALS.0));
    let to_be_met = (n, letters, names.as_str()) == (32, 2, "ends");
    println!("{}", if to_be_met { format!(", {}", met(under >= GOALS.1)) } else { String::new() });
    [library, unstepped]
}

/// All n variables named over one, for n letters: the whole call, and its steps alone.
fn ratios(letters: usize, all: [f64; 2], one: [f64; 2]) -> String {
    let (call, steps) = (all[0] / one[0], (all[0] - all[1]) / (one[0] - one[1]));
    let told = |ratio: f64| format!("{ratio:>5.2}, {:<7}", met(ratio >= letters as f64));
    format!("{} {}", told(call), told(steps))
}

/// The table, then the library's times where all n variables are named over those where one is.
fn main() {
    let mut rng = Rng::new(1);
    let mut lines = Vec::new();
    println!(" N n D k2 names untils | library µs     (a) µs     (b) µs | library/(b)       | (a)/library");
    for question in QUESTIONS {
        let (n, letters, d, to) = question;
        let file = file_of(&model_with(&mut rng, n, 2, d));
        let times: Vec<[f64; 2]> = rows(letters).into_iter().map(|kind| row(question, &file, kind)).collect();
        if let [_, _, all_1, all_6, one_1, one_6] = times[..] {
            let (by_1, by_6) = (ratios(letters, all_1, one_1), ratios(letters, all_6, one_6));
            lines.push(format!("{n:>2} {letters} {d} {to:>2} | {by_1} | {by_6}"));
        }
    }
    println!(
        "goals: library at most {} × (b); at N = 32, n = 2 at least {} times faster than (a)",
        GOALS.0, GOALS.1
    );
    println!("the library's time, all n variables named over one named: call, steps alone; goal: at least n");
    println!(" N n D k2 | 1 until                      | 6 untils\n{}", lines.join("\n"));
}
