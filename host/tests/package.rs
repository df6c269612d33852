//! The safe calls of the package `twolsken` beside the second program: types, codes and refusals are handed on unchanged.

use twolsken::{Fraction, Letter, Refusal, Verdict};
use twolsken_host::inputs::{grouping, model, question, sentence, Rng};
use twolsken_host::second::{self, Node, Relation};

/// Cases of each call.
const CASES: usize = 20_000;

/// How often a call answered and refused.
#[derive(Default)]
struct Given {
    answered: usize,
    refused: [usize; 16],
}

impl Given {
    /// Stops unless the package's answer is the expected one, and counts it.
    fn agree<T: PartialEq + std::fmt::Debug>(&mut self, expected: Result<T, u8>, got: Result<T, Refusal>) {
        assert_eq!(expected, got.map_err(Refusal::number));
        match expected {
            Ok(_) => self.answered += 1,
            Err(number) => self.refused[usize::from(number)] += 1,
        }
    }

    /// Stops unless there were many answers, and some refusals of each number.
    fn require(&self, numbers: &[usize]) {
        assert!(self.answered >= CASES / 10, "{} answers", self.answered);
        for &number in numbers {
            assert!(self.refused[number] >= CASES / 1_000, "{} times {number}", self.refused[number]);
        }
    }
}

/// A model of the second program as one of the package.
fn model_of(model: second::Model) -> twolsken::Model {
    let second::Model { n, a, d, version, masks, weights } = model;
    twolsken::Model { n, a, d, version, masks, weights }
}

/// Whether some state of a model has an empty row.
fn has_empty_row(model: &twolsken::Model) -> bool {
    model.weights.iter().take(model.n as usize).any(|row| row.iter().all(|&weight| weight == 0))
}

/// A node of the second program as one of the package.
fn node_of(node: Node) -> twolsken::Node {
    match node {
        Node::True => twolsken::Node::True,
        Node::Label { label, variable } => twolsken::Node::Label { label, variable },
        Node::Not => twolsken::Node::Not,
        Node::And => twolsken::Node::And,
        Node::Compare(relation) => twolsken::Node::Compare(match relation {
            Relation::Less => twolsken::Relation::Less,
            Relation::AtMost => twolsken::Relation::AtMost,
            Relation::Equal => twolsken::Relation::Equal,
            Relation::AtLeast => twolsken::Relation::AtLeast,
            Relation::Greater => twolsken::Relation::Greater,
        }),
        Node::Probability => twolsken::Node::Probability,
        Node::Constant { top, bottom } => twolsken::Node::Constant { top, bottom },
        Node::Sum => twolsken::Node::Sum,
        Node::Difference => twolsken::Node::Difference,
        Node::Product => twolsken::Node::Product,
        Node::Next => twolsken::Node::Next,
        Node::Until { from, to } => twolsken::Node::Until { from, to },
    }
}

/// A prefix and a list of nodes as a sentence of the package.
fn sentence_of(prefix: &[bool], list: &[Node]) -> twolsken::Sentence {
    let letter = |&exists: &bool| if exists { Letter::Exists } else { Letter::ForAll };
    twolsken::Sentence {
        prefix: prefix.iter().map(letter).collect(),
        nodes: list.iter().copied().map(node_of).collect(),
    }
}

#[test]
fn models() {
    let (mut rng, mut read, mut written) = (Rng::new(81), Given::default(), Given::default());
    let mut halted = 0;
    for _ in 0..CASES {
        let file = model::file(&mut rng);
        let got = twolsken::read_model(&file);
        halted += usize::from(got.as_ref().is_ok_and(has_empty_row));
        read.agree(second::read_model(&file).map(model_of), got);
        let record = model::record(&mut rng);
        let mut out = vec![7; rng.pick(&[1_024, 2_048, 3_072, 3_072])];
        let mut expected = out.clone();
        let answer = second::write_model(&record, &mut expected);
        written.agree(answer, twolsken::write_model(&model_of(record), &mut out));
        assert_eq!(expected, out);
    }
    assert!(halted >= CASES / 1_000, "{halted} models with an empty row");
    read.require(&[2, 3, 4, 5]);
    written.require(&[4, 5, 14]);
}

#[test]
fn sentences() {
    let (mut rng, mut read, mut written) = (Rng::new(82), Given::default(), Given::default());
    for _ in 0..CASES {
        let text = sentence::text(&mut rng);
        let expected = second::read_sentence(&text)
            .map(|found| sentence_of(&found.exists[..found.letters], &found.nodes[..found.count]));
        read.agree(expected, twolsken::read_sentence(&text));
        let record = sentence::record(&mut rng);
        if record.letters > 4 || record.count > 64 {
            continue;
        }
        let mut out = vec![7; rng.pick(&[10, 100, 400, 400])];
        let mut expected = out.clone();
        let answer = second::write_sentence(&record, &mut expected);
        let handed = sentence_of(&record.exists[..record.letters], &record.nodes[..record.count]);
        written.agree(answer, twolsken::write_sentence(&handed, &mut out));
        assert_eq!(expected, out);
    }
    read.require(&[6, 7, 8]);
    written.require(&[6, 7, 14]);
}

/// Lists that have no room in the library's record.
#[test]
fn a_prefix_or_a_list_that_is_too_long_is_refused_by_6() {
    let true_under = |nots: usize| [vec![Node::Not; nots], vec![Node::True]].concat();
    for (letters, nots, refusal) in [
        (4, 63, None),
        (5, 63, Some(Refusal::Grammar)),
        (260, 63, Some(Refusal::Grammar)),
        (4, 64, Some(Refusal::Grammar)),
        (4, 319, Some(Refusal::Grammar)),
        (0, 0, Some(Refusal::Grammar)),
    ] {
        let sentence = sentence_of(&vec![false; letters], &true_under(nots));
        assert_eq!(sentence.to_text().err(), refusal, "{letters} letters, {nots} times not");
    }
}

#[test]
fn questions() {
    let (mut rng, mut verdicts, mut numerators) = (Rng::new(83), Given::default(), Given::default());
    for _ in 0..CASES {
        let pair = question::pair(&mut rng);
        let mut area = vec![7; pair.any_room(&mut rng)];
        let mut other = area.clone();
        let said = second::verdict(&pair.file, &pair.text, &mut area);
        let expected = said.map(|holds| if holds { Verdict::Holds } else { Verdict::Fails });
        verdicts.agree(expected, twolsken::verdict(&pair.file, &pair.text, &mut other));
        assert_eq!(area, other);
        area.fill(8);
        other.fill(8);
        let tuple = vec![0; pair.text.iter().take_while(|&&byte| byte != b'.').count()];
        let path = rng.below(2);
        let counted = second::numerator(&pair.file, &pair.text, &tuple, path, &mut area);
        let expected = counted.map(|(numerator, denominator)| Fraction { numerator, denominator });
        let got = twolsken::numerator(&pair.file, &pair.text, &tuple, path, &mut other);
        numerators.agree(expected, got);
        assert_eq!(area, other);
    }
    verdicts.require(&[1, 2, 3, 4, 5, 6, 7, 8, 9, 10, 11]);
    numerators.require(&[1, 2, 3, 4, 5, 6, 7, 8, 9, 10, 11, 15]);
}

#[test]
fn merges() {
    let (mut rng, mut merged) = (Rng::new(84), Given::default());
    for _ in 0..CASES {
        let merging = grouping::merging(&mut rng);
        let mut out = vec![7; merging.room];
        let mut expected = out.clone();
        let answer = second::merge(&merging.file, &merging.grouping, &mut expected);
        merged.agree(answer, twolsken::merge(&merging.file, &merging.grouping, &mut out));
        assert_eq!(expected, out);
    }
    merged.require(&[2, 3, 4, 5, 12, 13, 14]);
}
