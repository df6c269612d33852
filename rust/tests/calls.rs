//! What the package says of every call: it runs on 256 KiB of stack, several run at once, and in version 1 the questions
//! and merge read an empty row as weight D to the state itself.

use std::thread::{scope, Builder};
use twolsken::{
    merge, numerator, read_model, read_sentence, verdict, work_area, write_model, write_sentence, Fraction,
    Model, Refusal, Verdict, LONGEST_FILE, LONGEST_TEXT,
};

/// The stack that a call takes at most.
const STACK: usize = 256 << 10;

/// A model of 32 states: each goes to the next, the last stays.
fn longest_way() -> Model {
    let mut model = Model { n: 32, a: 16, d: 65_535, ..Model::empty() };
    for state in 0..32 {
        model.masks[state] = 0xFFFF;
        model.weights[state][(state + 1).min(31)] = 65_535;
    }
    model
}

/// The model merged by the grouping 0, 1, 2 and on, by which each state is a group of its own.
fn by_itself(model: &Model) -> Model {
    let grouping: Vec<u8> = (0..model.n as u8).collect();
    let mut merged = vec![0; LONGEST_FILE];
    let length = merge(&model.to_file().expect("a file"), &grouping, &mut merged).expect("a merged file");
    read_model(&merged[..length]).expect("the merged model")
}

/// Reading and writing; the deepest questions are in the comparisons with the second program.
#[test]
fn reading_writing_and_merging_need_little_stack() {
    let full = longest_way();
    let mut halted = Model { version: 1, ..full.clone() };
    halted.weights[31] = [0; 32];
    let filled = Model { version: 1, ..full.clone() };
    for (model, expected) in [(full.clone(), full), (filled.clone(), filled.clone()), (halted, filled)] {
        let call = move || {
            let mut out = vec![0; LONGEST_FILE];
            let length = write_model(&model, &mut out).expect("a file");
            let back = read_model(&out[..length]).expect("the model");
            (back == model, by_itself(&model) == expected)
        };
        let thread = Builder::new().stack_size(STACK).spawn(call).expect("a thread");
        assert_eq!(thread.join().expect("answers"), (true, true));
    }
    let text = format!("A.{}T", "!".repeat(63));
    let call = move || {
        let sentence = read_sentence(text.as_bytes()).expect("a sentence");
        let mut out = [0; LONGEST_TEXT];
        write_sentence(&sentence, &mut out).map(|length| out[..length] == *text.as_bytes())
    };
    let thread = Builder::new().stack_size(STACK).spawn(call).expect("a thread");
    assert_eq!(thread.join().expect("an answer"), Ok(true));
}

/// Each thread asks a model of its own many times, and always gets that model's answers. In every other model state 1
/// is halted, with an empty row.
#[test]
fn calls_on_several_threads_do_not_meet() {
    scope(|threads| {
        for top in 0..4 {
            threads.spawn(move || {
                let version = u32::from(top % 2);
                let mut model = Model { n: 2, a: 1, d: 4, version, ..Model::empty() };
                model.masks[1] = 1;
                model.weights[0][..2].copy_from_slice(&[4 - top, top]);
                model.weights[1][1] = if version == 0 { 4 } else { 0 };
                let file = model.to_file().expect("a file");
                let text = format!("A.GPXa1#{top}/4;");
                let more = format!("A.GPXa1#{}/4;", top + 1);
                let mut work = [0; work_area(2, 1)];
                for _ in 0..2_000 {
                    let chance = numerator(&file, text.as_bytes(), &[0], 0, &mut work);
                    assert_eq!(chance, Ok(Fraction { numerator: top.into(), denominator: 4 }));
                    assert_eq!(verdict(&file, text.as_bytes(), &mut work), Ok(Verdict::Holds));
                    assert_eq!(verdict(&file, more.as_bytes(), &mut work), Ok(Verdict::Fails));
                }
            });
        }
    });
}

/// A model of version 1, D = 4: state 0 stays with weight 3 and halts in state 1 with weight 1; state 2 is halted too.
/// State 1 and state 2 have the label, and empty rows.
fn two_halts() -> Model {
    let mut model = Model { n: 3, a: 1, d: 4, version: 1, ..Model::empty() };
    model.masks[1..3].copy_from_slice(&[1, 1]);
    model.weights[0][..2].copy_from_slice(&[3, 1]);
    model
}

/// Runs of two steps that have the label at their end: 7 of 16 from state 0, all from the others. Without the filling
/// these would be 3 and 0; with weight D to state 0 for an empty row, 3 and 4.
#[test]
fn questions_read_empty_rows_as_filled() {
    let file = two_halts().to_file().expect("a file");
    let mut work = [0; work_area(3, 1)];
    let text = b"A.GPU2,2:Ta1#7/16;";
    for (state, expected) in [(0, "7/16"), (1, "16/16"), (2, "16/16")] {
        let fraction = numerator(&file, text, &[state], 0, &mut work).expect("a fraction");
        assert_eq!(fraction.to_string(), expected, "state {state}");
    }
    assert_eq!(verdict(&file, text, &mut work), Ok(Verdict::Holds));
    assert_eq!(verdict(&file, b"A.>PU2,2:Ta1#7/16;", &mut work), Ok(Verdict::Fails));
}

#[test]
fn merging_writes_filled_rows_and_keeps_the_version() {
    let halted = two_halts();
    let mut filled = halted.clone();
    (filled.weights[1][1], filled.weights[2][2]) = (4, 4);
    assert_eq!(by_itself(&halted), filled);
    assert_eq!(by_itself(&filled), filled);

    // Both halts stay among themselves, so that they are alike, though their filled rows differ.
    let mut out = [0; LONGEST_FILE];
    let length = merge(&halted.to_file().expect("a file"), &[0, 1, 1], &mut out).expect("a merged file");
    let merged = read_model(&out[..length]).expect("the merged model");
    assert_eq!((merged.n, merged.version), (2, 1));
    assert_eq!((&merged.weights[0][..2], &merged.weights[1][..2]), (&[3, 1][..], &[0, 4][..]));

    // An empty row is not alike to one that leads elsewhere.
    let mut leaving = halted;
    leaving.weights[2][0] = 4;
    let file = leaving.to_file().expect("a file");
    assert_eq!(merge(&file, &[0, 1, 1], &mut out), Err(Refusal::NotAlike));
}
