//! Libraries with one fault each: the document's 'Errors to expect from a
//! hurried builder' and some of lent memory. Each must be found by the
//! comparison of its area, or the comparison shows nothing.

use super::*;
use crate::inputs::extreme::Kind;
use crate::inputs::naming::end_of;
use crate::inputs::question::Pair;
use crate::inputs::watch;
use crate::second::meaning::Way;
use crate::second::sentence::{read_sentence, spelled, Node, Relation};
use std::panic::{catch_unwind, AssertUnwindSafe};

/// What a faulty library does wrong.
#[derive(Clone, Copy, Debug, PartialEq, Eq)]
enum Fault {
    // Meaning.
    OneProbabilityPerMoment,
    FirstFormulaAtTheMatchToo,
    MatchBeforeTheWindow,
    SeparateRuns,
    RoundedDivision,
    LessIsAtMost,
    LastLetterOutermost,
    TupleBackwards,
    PathsBackwards,
    NoSizeRule,
    TuplesBeforeSize,
    DifferenceTurned,
    WindowCut,
    ManyTuplesTurned,
    ManyNodesTurned,
    // Row 15.
    TupleCut,
    MemberWrapped,
    PathInOneByte,
    // Merging.
    SingleWeights,
    MasksNotCompared,
    // Reading and writing.
    CheckModuloOnly,
    RowSumInTwoBytes,
    StatesInOneByte,
    TrailingByteAllowed,
    // Lent memory.
    WorkNotZero,
    WorkZeroOnRefusal,
    WorkZeroBeyond,
    OutputOnRefusal,
    OutputBeyond,
}

/// The second program with one fault.
struct Faulty(Fault);

impl Faulty {
    /// Whether this is the library's fault.
    fn has(&self, fault: Fault) -> bool {
        self.0 == fault
    }

    /// The text that a fault of meaning takes for the given one, if that can be asked.
    fn mistaken(&self, file: &[u8], text: &[u8]) -> Vec<u8> {
        let Ok(sentence) = read_sentence(text) else { return text.to_vec() };
        let mut prefix = sentence.exists[..sentence.letters].to_vec();
        let mut list = rewritten(self.0, &sentence.nodes[..sentence.count]);
        if self.has(Fault::LastLetterOutermost) {
            prefix.reverse();
            for node in &mut list {
                if let Node::Label { variable, .. } = node {
                    *variable = sentence.letters as u8 + 1 - *variable;
                }
            }
        }
        let other = spelled(&prefix, &list);
        let asked = |text: &[u8]| second::meaning::answer(file, text, Way::Table).is_ok();
        if asked(text) && asked(&other) {
            other
        } else {
            text.to_vec()
        }
    }

    /// The verdict by fractions divided and rounded, for one letter and a body
    /// that compares one path's probability with a constant.
    fn rounded(&self, file: &[u8], text: &[u8]) -> Option<bool> {
        let sentence = read_sentence(text).ok()?;
        let list = &sentence.nodes[..sentence.count];
        let (Node::Compare(relation), Node::Constant { top, bottom }) = (list[0], list[list.len() - 1])
        else {
            return None;
        };
        if !self.has(Fault::RoundedDivision) || sentence.letters > 1 || end_of(&list[1..]) + 2 != list.len() {
            return None;
        }
        let found = second::meaning::answer(file, text, Way::Table).ok()?;
        let fractions = found.paths.first().filter(|_| list[1] == Node::Probability)?;
        let right = f64::from(top) / f64::from(bottom);
        let mut truth = fractions.tops.iter().map(|&top| {
            let left = top as f64 / fractions.bottom as f64;
            match relation {
                Relation::Less => left < right,
                Relation::AtMost => left <= right,
                Relation::Equal => left == right,
                Relation::AtLeast => left >= right,
                Relation::Greater => left > right,
            }
        });
        Some(if sentence.exists[0] { truth.any(|truth| truth) } else { truth.all(|truth| truth) })
    }

    /// Whether the fault turns the verdict of a pair round: at 1,024 tuples, or from 60 nodes on.
    fn turns(&self, file: &[u8], text: &[u8]) -> bool {
        let sentence = read_sentence(text).expect("a pair that is answered");
        let tuples = usize::from(file[1]).pow(sentence.letters as u32);
        (self.has(Fault::ManyTuplesTurned) && tuples == 1_024)
            || (self.has(Fault::ManyNodesTurned) && sentence.count >= 60)
    }

    /// The tuple and the path number that a fault takes for the given ones.
    fn taken(&self, file: &[u8], text: &[u8], tuple: &[u8], path: usize) -> (Vec<u8>, usize) {
        let mut tuple = tuple.to_vec();
        match self.0 {
            Fault::TupleBackwards => tuple.reverse(),
            Fault::TupleCut => tuple.truncate(read_sentence(text).map_or(9, |sentence| sentence.letters)),
            Fault::MemberWrapped if !file.is_empty() && file[1] > 0 => {
                tuple.iter_mut().for_each(|member| *member %= file[1])
            }
            Fault::PathInOneByte => return (tuple, path % 256),
            Fault::PathsBackwards => {
                let paths = text.iter().filter(|&&byte| byte == b'P').count();
                return (tuple, paths.wrapping_sub(1).wrapping_sub(path));
            }
            _ => {}
        }
        (tuple, path)
    }

    /// Work area and output faults, after a call that wrote so many places.
    fn leave<T, N: Copy + Default>(&self, answer: &Result<T, u8>, lent: &mut [N], written: usize, other: N) {
        match (self.0, answer) {
            (Fault::WorkNotZero, Ok(_)) => lent[written - 1] = other,
            (Fault::WorkZeroOnRefusal, Err(_)) | (Fault::OutputOnRefusal, Err(14)) => {
                lent.iter_mut().take(1).for_each(|place| *place = N::default())
            }
            (Fault::WorkZeroBeyond | Fault::OutputBeyond, Ok(_)) => lent[written..].fill(N::default()),
            _ => {}
        }
    }

    /// Work area faults, after a call.
    fn leave_work<T>(&self, answer: &Result<T, u8>, file: &[u8], text: &[u8], work: &mut [u64]) {
        let pair = Pair { file: file.to_vec(), text: text.to_vec() };
        self.leave(answer, work, pair.room().unwrap_or(0), 1);
    }
}

/// A list as a fault takes it.
fn rewritten(fault: Fault, list: &[Node]) -> Vec<Node> {
    let Some(&head) = list.first() else { return Vec::new() };
    match (fault, head, list.get(1)) {
        (Fault::OneProbabilityPerMoment, Node::Probability, Some(&Node::Until { from, to })) if from < to => {
            let mut split = vec![Node::Sum, head, Node::Until { from, to: from }];
            split.extend_from_slice(&list[2..]);
            split.extend_from_slice(&[head, Node::Until { from: from + 1, to }]);
            split.extend_from_slice(&list[2..]);
            split
        }
        (Fault::SeparateRuns, Node::Probability, Some(&until @ Node::Until { .. })) => {
            separate(head, until, &list[2..]).unwrap_or_else(|| list.to_vec())
        }
        (Fault::FirstFormulaAtTheMatchToo, Node::Until { .. }, _) => {
            let first = &list[1..1 + end_of(&list[1..])];
            let second = &list[1 + first.len()..];
            [&[head], first, &[Node::And], first, second].concat()
        }
        (Fault::MatchBeforeTheWindow, Node::Until { to, .. }, _) => {
            inside(fault, Node::Until { from: 0, to }, list)
        }
        (Fault::WindowCut, Node::Until { from, to }, _) => {
            inside(fault, Node::Until { from: from.min(40), to: to.min(40) }, list)
        }
        (Fault::DifferenceTurned, Node::Difference, _) => {
            let left = &list[1..1 + end_of(&list[1..])];
            [&[head], &list[1 + left.len()..], left].concat()
        }
        (Fault::LessIsAtMost, Node::Compare(Relation::Less), _) => {
            inside(fault, Node::Compare(Relation::AtMost), list)
        }
        _ => inside(fault, head, list),
    }
}

/// Another head for a list, and what follows it as the fault takes it.
fn inside(fault: Fault, head: Node, list: &[Node]) -> Vec<Node> {
    let mut result = vec![head];
    let mut rest = &list[1..];
    while !rest.is_empty() {
        let (part, after) = rest.split_at(end_of(rest));
        result.extend(rewritten(fault, part));
        rest = after;
    }
    result
}

/// An until for `&` of two formulas as the product of two untils.
fn separate(head: Node, until: Node, list: &[Node]) -> Option<Vec<Node>> {
    let (first, second) = list.split_at(end_of(list));
    let both = second.strip_prefix(&[Node::And])?;
    let (left, right) = both.split_at(end_of(both));
    Some([&[Node::Product, head, until], first, left, &[head, until], first, right].concat())
}

impl Models for Faulty {
    fn read_model(&self, file: &[u8]) -> Result<Model, u8> {
        let mut file = file.to_vec();
        if self.has(Fault::CheckModuloOnly) {
            for block in file.chunks_exact_mut(512) {
                let check = u16::from_le_bytes([block[510], block[511]]) % 65_521;
                block[510..].copy_from_slice(&check.to_le_bytes());
            }
        }
        match second::read_model(&file) {
            Err(5) if self.has(Fault::RowSumInTwoBytes) => {
                let row = |s: usize| &file[second::model::weight_place(s, 0)..][..64];
                let sum = |s: usize| {
                    row(s)
                        .chunks(2)
                        .fold(0u16, |sum, two| sum.wrapping_add(u16::from_le_bytes([two[0], two[1]])))
                };
                let d = u16::from_le_bytes([file[4], file[5]]);
                let wrong = (0..usize::from(file[1])).any(|s| sum(s) != d);
                if wrong {
                    Err(5)
                } else {
                    Ok(Model::empty())
                }
            }
            answer => answer,
        }
    }

    fn write_model(&self, model: &Model, out: &mut [u8]) -> Result<usize, u8> {
        let mut model = model.clone();
        if self.has(Fault::StatesInOneByte) {
            model.n %= 256;
        }
        let answer = second::write_model(&model, out);
        self.leave(&answer, out, answer.unwrap_or(0), 1);
        answer
    }
}

impl Sentences for Faulty {
    fn read_sentence(&self, text: &[u8]) -> Result<Sentence, u8> {
        match second::read_sentence(text) {
            Err(6) if self.has(Fault::TrailingByteAllowed) && !text.is_empty() => {
                second::read_sentence(&text[..text.len() - 1])
            }
            answer => answer,
        }
    }

    fn write_sentence(&self, sentence: &Sentence, out: &mut [u8]) -> Result<usize, u8> {
        let answer = second::write_sentence(sentence, out);
        self.leave(&answer, out, answer.unwrap_or(0), 1);
        answer
    }
}

impl Questions for Faulty {
    fn verdict(&self, file: &[u8], text: &[u8], work: &mut [u64]) -> Result<bool, u8> {
        let answer = match second::verdict(file, &self.mistaken(file, text), work) {
            Err(10) if self.has(Fault::NoSizeRule) => Ok(true),
            Err(10) if self.has(Fault::TuplesBeforeSize) => {
                let letters = read_sentence(text).map_or(0, |sentence| sentence.letters);
                Err(if usize::from(file[1]).pow(letters as u32) > 1_024 { 11 } else { 10 })
            }
            Ok(right) if self.turns(file, text) => Ok(!right),
            Ok(right) => Ok(self.rounded(file, text).unwrap_or(right)),
            refused => refused,
        };
        self.leave_work(&answer, file, text, work);
        answer
    }

    fn numerator(
        &self,
        file: &[u8],
        text: &[u8],
        tuple: &[u8],
        path: usize,
        work: &mut [u64],
    ) -> Result<(u64, u64), u8> {
        let (tuple, path) = self.taken(file, text, tuple, path);
        let of_windows = matches!(self.0, Fault::MatchBeforeTheWindow | Fault::WindowCut);
        let text = if of_windows { self.mistaken(file, text) } else { text.to_vec() };
        let answer = second::numerator(file, &text, &tuple, path, work);
        self.leave_work(&answer, file, &text, work);
        answer
    }
}

impl Merges for Faulty {
    fn merge(&self, file: &[u8], grouping: &[u8], out: &mut [u8]) -> Result<usize, u8> {
        let before = out.to_vec();
        let mut answer = second::merge(file, grouping, out);
        if let (Ok(model), Fault::SingleWeights, true) = (second::read_model(file), self.0, answer.is_ok()) {
            let rows = || grouping.iter().zip(&model.weights);
            if rows().any(|(g, row)| rows().any(|(h, other)| g == h && row != other)) {
                out.copy_from_slice(&before);
                answer = Err(13);
            }
        }
        if let (Ok(mut model), Fault::MasksNotCompared, Err(13)) = (second::read_model(file), self.0, answer)
        {
            model.masks = [0; 32];
            answer = second::merge(&crate::inputs::model::file_of(&model), grouping, out);
        }
        self.leave(&answer, out, answer.unwrap_or(0), 1);
        answer
    }
}

/// Stops unless a comparison finds a fault.
fn found(fault: Fault, comparison: impl FnOnce(&Faulty) -> Tally) {
    let lib = Faulty(fault);
    noticed(&format!("{fault:?}"), || comparison(&lib));
}

/// The report of a difference with which a comparison with a faulty library ends. Stops unless there is one.
pub(super) fn noticed(fault: &str, comparison: impl FnOnce() -> Tally) -> String {
    let outcome = catch_unwind(AssertUnwindSafe(comparison));
    let report = outcome.expect_err(&format!("{fault} was not found"));
    let text = report.downcast_ref::<String>().expect("a report");
    assert!(text.contains("differs") || text.contains("work area"), "{fault}: {text}");
    text.clone()
}

#[test]
fn faults_of_meaning_are_found_by_verdicts() {
    use Fault::*;
    for fault in [
        OneProbabilityPerMoment,
        FirstFormulaAtTheMatchToo,
        MatchBeforeTheWindow,
        SeparateRuns,
        RoundedDivision,
        LessIsAtMost,
        LastLetterOutermost,
        NoSizeRule,
        TuplesBeforeSize,
        WorkNotZero,
        WorkZeroOnRefusal,
        WorkZeroBeyond,
    ] {
        found(fault, |lib| compare_verdict(lib, 20_000, 8));
    }
}

#[test]
fn faults_are_found_by_numerators() {
    use Fault::*;
    for fault in
        [MatchBeforeTheWindow, TupleBackwards, PathsBackwards, WorkNotZero, WorkZeroOnRefusal, WorkZeroBeyond]
    {
        found(fault, |lib| compare_numerator(lib, 2_000, 9));
    }
}

#[test]
fn faults_at_the_ends_are_found_by_extremes() {
    for (fault, kind) in [
        (Fault::DifferenceTurned, Kind::BelowZero),
        (Fault::WindowCut, Kind::LongWindow),
        (Fault::ManyTuplesTurned, Kind::Tuples),
        (Fault::ManyNodesTurned, Kind::Negations),
        (Fault::ManyNodesTurned, Kind::Conjunctions),
        (Fault::ManyNodesTurned, Kind::LeftSum),
        (Fault::ManyNodesTurned, Kind::RightSum),
        (Fault::ManyNodesTurned, Kind::Untils),
        (Fault::ManyNodesTurned, Kind::Nexts),
        (Fault::NoSizeRule, Kind::EndBeyond),
    ] {
        found(fault, |lib| compare_extreme(lib, kind, 1_000, 15));
    }
}

#[test]
fn faults_of_row_15_and_of_work_areas_are_found() {
    use Fault::*;
    for fault in [TupleCut, MemberWrapped, PathInOneByte, TupleBackwards, PathsBackwards] {
        found(fault, |lib| compare_row_15(lib, 200, 16));
    }
    for fault in [WorkNotZero, WorkZeroOnRefusal, WorkZeroBeyond] {
        found(fault, |lib| compare_rooms(lib, 50, 17));
        found(fault, |lib| compare_watches(lib, watch::Kind::Ends, 50, 18).0);
    }
    for fault in [WorkNotZero, WorkZeroBeyond] {
        found(fault, |lib| compare_sums(lib, 50, 19).0);
    }
}

#[test]
fn faults_are_found_by_merges_readers_and_writers() {
    use Fault::*;
    for fault in [SingleWeights, MasksNotCompared, OutputOnRefusal, OutputBeyond] {
        found(fault, |lib| compare_merge(lib, 5_000, 10));
    }
    for fault in [CheckModuloOnly, RowSumInTwoBytes] {
        found(fault, |lib| compare_model_reader(lib, 5_000, 11));
    }
    found(TrailingByteAllowed, |lib| compare_sentence_reader(lib, 5_000, 12));
    found(StatesInOneByte, |lib| compare_model_writer(lib, 5_000, 13));
    for fault in [OutputOnRefusal, OutputBeyond] {
        found(fault, |lib| compare_model_writer(lib, 5_000, 13));
        found(fault, |lib| compare_sentence_writer(lib, 5_000, 14));
    }
}
