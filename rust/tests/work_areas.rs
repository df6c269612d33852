//! The work area of a question on both sides of the numbers that it needs, 8 for each tuple of states; and refusal 1 after
//! every other.

use twolsken::{numerator, verdict, work_area, Model, Refusal, TUPLES, WORK_AREA, WORK_PER_TUPLE};

/// What lies in a work area before a call.
const BEFORE: u64 = 0xA5A5_A5A5_A5A5_A5A5;

/// A question: a verdict, or a numerator of path formula 0.
enum Question<'a> {
    Verdict,
    Numerator {
        /// The tuple that is asked.
        tuple: &'a [u8],
    },
}

impl Question<'_> {
    /// The answer as it is printed, or the refusal.
    fn asked(&self, file: &[u8], text: &[u8], work: &mut [u64]) -> Result<String, Refusal> {
        match self {
            Question::Verdict => verdict(file, text, work).map(|said| said.to_string()),
            Question::Numerator { tuple } => {
                numerator(file, text, tuple, 0, work).map(|fraction| fraction.to_string())
            }
        }
    }

    /// Asks with a work area of so many numbers: a refusal leaves all of them as they were, and an answer leaves the
    /// first `needs` zero and the others as they were.
    fn with_room(&self, file: &[u8], text: &[u8], room: usize, needs: usize) -> Result<String, Refusal> {
        let mut work = vec![BEFORE; room];
        let answer = self.asked(file, text, &mut work);
        let cleared = if answer.is_ok() { needs } else { 0 };
        assert!(work[..cleared].iter().all(|&number| number == 0), "{room} numbers: the front is zero");
        assert!(work[cleared..].iter().all(|&number| number == BEFORE), "{room} numbers: the rest stays");
        answer
    }

    /// Asks with work areas about the numbers that are needed: a shorter one is refused by 1, and from there on each
    /// gives the answer.
    fn needs_exactly(&self, file: &[u8], text: &str, needs: usize, answer: &str) {
        for room in [0, 1, 7, needs / 2, needs - WORK_PER_TUPLE, needs - 1] {
            let refused = self.with_room(file, text.as_bytes(), room, needs);
            assert_eq!(refused, Err(Refusal::WorkArea), "{room} numbers of {needs} for {text}");
        }
        for room in [needs, needs + 1, needs + 7, 2 * needs, WORK_AREA, WORK_AREA + 1, 3 * WORK_AREA] {
            let answered = self.with_room(file, text.as_bytes(), room, needs).expect(text);
            assert_eq!(answered, answer, "{room} numbers of {needs} for {text}");
        }
    }
}

/// A ring: of D = 4 each state stays with weight 3 and goes on with weight 1, the last to state 0, which has the label.
fn ring(n: usize) -> Vec<u8> {
    let mut model = Model { n: n as u32, a: 1, d: 4, ..Model::empty() };
    model.masks[0] = 1;
    for state in 0..n {
        model.weights[state][state] += 3;
        model.weights[state][(state + 1) % n] += 1;
    }
    model.to_file().expect("a file")
}

/// The states, the letters and the numbers that a question needs: one tuple, few, and as many as there can be.
const NEEDS: [(usize, usize, usize); 13] = [
    (1, 1, 8),
    (1, 4, 8),
    (2, 1, 16),
    (2, 4, 128),
    (3, 3, 216),
    (5, 1, 40),
    (5, 2, 200),
    (5, 4, 5_000),
    (10, 3, 8_000),
    (31, 1, 248),
    (31, 2, 7_688),
    (32, 1, 256),
    (32, 2, 8 * 1_024),
];

#[test]
fn the_numbers_of_a_question() {
    assert_eq!((WORK_PER_TUPLE, TUPLES, WORK_AREA), (8, 1_024, 8 * 1_024));
    for (states, letters, needs) in NEEDS {
        assert_eq!(work_area(states, letters), needs, "{states} states, {letters} letters");
        assert!(needs <= WORK_AREA, "{states} states, {letters} letters");
    }
    assert_eq!([work_area(7, 0), work_area(0, 0), work_area(0, 1), work_area(0, usize::MAX)], [8, 8, 0, 0]);
}

#[test]
fn numbers_that_leave_a_usize_saturate() {
    let (most, bits) = (usize::MAX, usize::BITS as usize);
    assert_eq!(work_area(most / 8, 1), most / 8 * 8);
    assert_eq!(work_area(2, bits - 4), 1 << (bits - 1));
    for (states, letters) in [(most / 8 + 1, 1), (most, 1), (2, bits - 3), (2, most), (most, most)] {
        assert_eq!(work_area(states, letters), most, "{states} states, {letters} letters");
    }
    // a number of letters whose low 32 bits are 0
    assert_eq!([work_area(2, most - u32::MAX as usize), work_area(1, most)], [most, 8]);
}

/// From the last state the label is met after one step with weight 1, in a ring of one state with weight 4.
#[test]
fn a_question_needs_eight_numbers_for_each_tuple() {
    for (states, letters, needs) in NEEDS {
        let file = ring(states);
        let prefix = "A".repeat(letters);
        let text = format!("{prefix}.GPXa1#1/4;");
        let verdict = if states <= 2 { "holds" } else { "fails" };
        Question::Verdict.needs_exactly(&file, &text, needs, verdict);
        let fraction = if states == 1 { "4/4" } else { "1/4" };
        let last = Question::Numerator { tuple: &vec![states as u8 - 1; letters] };
        last.needs_exactly(&file, &text, needs, fraction);
    }
}

/// Conjunctions of labels in pairs, and these in pairs again, keep many tuples' numbers at once: 32 labels, and 24 in the
/// formulas of an until, which from state 0 takes the runs that stay there for a step.
#[test]
fn the_widest_sentences_need_no_more() {
    let pairs = |levels| (0..levels).fold("a1".to_string(), |pair, _| format!("&{pair}{pair}"));
    for (states, letters, needs) in NEEDS {
        let file = ring(states);
        let prefix = "E".repeat(letters);
        Question::Verdict.needs_exactly(&file, &format!("{prefix}.{}", pairs(5)), needs, "holds");
        let until = format!("{prefix}.GPU1,2:{}{}#0/1;", pairs(3), pairs(4));
        let first = Question::Numerator { tuple: &vec![0; letters] };
        let fraction = if states == 1 { "16/16" } else { "12/16" };
        first.needs_exactly(&file, &until, needs, fraction);
    }
}

/// The work areas with which a refusal must not be 1: of any length, that of the most tuples and more among them.
const ROOMS: [usize; 6] = [0, 1, 8, 15, WORK_AREA, 2 * WORK_AREA];

/// A file that is refused by 5: in version 0 it has an empty row. The head's check is that of byte 3 = 0.
fn with_an_empty_row() -> Vec<u8> {
    let mut model = Model { n: 2, a: 1, d: 4, version: 1, ..Model::empty() };
    model.weights[0][0] = 4;
    let mut file = model.to_file().expect("a file");
    file[3] = 0;
    file[510] -= 4;
    file
}

/// Pairs of a file and a text, and what both questions refuse each by.
fn refused() -> Vec<(Vec<u8>, String, Refusal)> {
    let mut damaged = ring(2);
    damaged[10] = 1;
    let files = [
        (Vec::new(), Refusal::FileLength),
        (ring(2)[1..].to_vec(), Refusal::FileLength),
        (damaged, Refusal::Check),
        (vec![0; 512], Refusal::Layout),
        (with_an_empty_row(), Refusal::RowSum),
    ]
    .map(|(file, refusal)| (file, "A.GPXa1#0/1;".to_string(), refusal));
    let texts = [
        (2, String::new(), Refusal::Grammar),
        (2, "AAAAA.GPXa1#0/1;".to_string(), Refusal::Grammar),
        (2, "A.GPXa2#0/1;".to_string(), Refusal::Range),
        (2, format!("A.{}GPXa1#0/1;", "!".repeat(60)), Refusal::TooManyNodes),
        (2, "A.GPXb1#0/1;".to_string(), Refusal::NoSuchLabel),
        (2, "A.GPU0,32:Ta1#0/1;".to_string(), Refusal::SizeRule),
        (6, "AAAA.GPXa1#0/1;".to_string(), Refusal::TooManyTuples),
        (11, "AAA.GPXa1#0/1;".to_string(), Refusal::TooManyTuples),
        (32, "AAAA.GPXa1#0/1;".to_string(), Refusal::TooManyTuples),
    ]
    .map(|(states, text, refusal)| (ring(states), text, refusal));
    files.into_iter().chain(texts).collect()
}

/// The tuple has no member: that is refused by 15, after the others and before 1.
#[test]
fn refusal_1_comes_after_2_to_11() {
    for (file, text, refusal) in refused() {
        for room in ROOMS {
            for question in [Question::Verdict, Question::Numerator { tuple: &[] }] {
                let answer = question.with_room(&file, text.as_bytes(), room, 0);
                assert_eq!(answer, Err(refusal), "{text} with {room} numbers");
            }
        }
    }
}

#[test]
fn refusal_1_comes_after_15() {
    let file = ring(2);
    for (text, tuple) in
        [("A.GPXa1#0/1;", &[][..]), ("A.GPXa1#0/1;", &[0, 0]), ("AA.GPXa1#0/1;", &[0, 2]), ("A.a1", &[0])]
    {
        for room in ROOMS {
            let answer = Question::Numerator { tuple }.with_room(&file, text.as_bytes(), room, 0);
            assert_eq!(answer, Err(Refusal::TupleOrPath), "{text} at {tuple:?} with {room} numbers");
        }
    }
    let answer = Question::Numerator { tuple: &[0] }.with_room(&file, b"A.GPXa1#0/1;", 15, 16);
    assert_eq!(answer, Err(Refusal::WorkArea));
}

/// As many numbers as that many tuples would need make no difference: they are refused by 11.
#[test]
fn no_work_area_is_long_enough_for_too_many_tuples() {
    for (states, letters) in [(6, 4), (11, 3), (32, 3)] {
        let room = work_area(states, letters);
        let text = format!("{}.a1", "A".repeat(letters));
        let answer = Question::Verdict.with_room(&ring(states), text.as_bytes(), room, 0);
        assert_eq!(answer, Err(Refusal::TooManyTuples), "{text} with {room} numbers");
    }
}
