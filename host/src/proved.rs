//! The proved library, to be compared with the second program. It is called by the functions of the header, with
//! marked memory where a call may write: a refused call must leave the marks.

use crate::compare::{Merges, Models, Questions, Sentences};
use crate::second::{Model, Node, Relation, Sentence};
use twolsken::raw;

/// The proved library.
#[derive(Clone, Copy, Debug)]
pub struct Proved;

/// Marks for lent numbers, one for each width.
const MARK_16: u16 = 0x5A5A;
const MARK_32: u32 = 0xA5A5_5A5A;
const MARK_64: u64 = 0xA5A5_5A5A_C3C3_3C3C;

/// The number of a refusal, from an answer that is none other.
fn refusal(answer: u32) -> u8 {
    assert!((1..=15).contains(&answer), "{answer} is no answer of the library");
    answer as u8
}

/// A reader's or numerator's answer: nothing, or the refusal's number, and then the lent memory is as it was.
fn answered<T: PartialEq>(answer: u32, before: T, after: T) -> Result<(), u8> {
    if answer == 0 {
        return Ok(());
    }
    assert!(before == after, "a call that was refused by {answer} changed lent memory");
    Err(refusal(answer))
}

/// A writer's answer: how many bytes it wrote, or the refusal's number.
fn written(answer: u64) -> Result<usize, u8> {
    match answer.checked_sub(raw::REFUSED) {
        Some(number) => Err(refusal(number as u32)),
        None => Ok(answer as usize),
    }
}

impl Models for Proved {
    fn read_model(&self, file: &[u8]) -> Result<Model, u8> {
        let before = ([MARK_32; 4], [MARK_16; 32], [[MARK_16; 32]; 32]);
        let mut after = before;
        let (head, masks, rows) = (&mut after.0, &mut after.1, &mut after.2);
        // SAFETY: the slice goes with its own length, and the arrays have the lengths that the function writes.
        let answer = unsafe { raw::twolsken_read_model(file.as_ptr(), file.len(), head, masks, rows) };
        answered(answer, before, after)?;
        let ([n, a, d, version], masks, weights) = after;
        Ok(Model { n, a, d, version, masks, weights })
    }

    fn write_model(&self, model: &Model, out: &mut [u8]) -> Result<usize, u8> {
        let head = [model.n, model.a, model.d, model.version];
        // SAFETY: the slice goes with its own length, and the arrays have the lengths that the function reads.
        written(unsafe {
            raw::twolsken_write_model(&head, &model.masks, &model.weights, out.as_mut_ptr(), out.len())
        })
    }
}

impl Sentences for Proved {
    fn read_sentence(&self, text: &[u8]) -> Result<Sentence, u8> {
        let before = ([MARK_64; 2], [MARK_16 as u8; 4], [[MARK_32; 3]; 64]);
        let mut after = before;
        let (head, exists, codes) = (&mut after.0, &mut after.1, &mut after.2);
        // SAFETY: the slice goes with its own length, and the arrays have the lengths that the function writes.
        let answer = unsafe { raw::twolsken_read_sentence(text.as_ptr(), text.len(), head, exists, codes) };
        answered(answer, before, after)?;
        let ([letters, count], exists, codes) = after;
        assert!(exists.iter().all(|&flag| flag <= 1), "{exists:?}");
        Ok(Sentence {
            letters: letters as usize,
            exists: exists.map(|flag| flag == 1),
            count: count as usize,
            nodes: codes.map(node_of),
        })
    }

    fn write_sentence(&self, sentence: &Sentence, out: &mut [u8]) -> Result<usize, u8> {
        let exists = sentence.exists.map(u8::from);
        let codes = sentence.nodes.map(code_of);
        let (letters, count) = (sentence.letters as u64, sentence.count as u64);
        // SAFETY: the slice goes with its own length, and the arrays have the lengths that the function reads.
        written(unsafe {
            raw::twolsken_write_sentence(letters, count, &exists, &codes, out.as_mut_ptr(), out.len())
        })
    }
}

impl Questions for Proved {
    fn verdict(&self, file: &[u8], text: &[u8], work: &mut [u64]) -> Result<bool, u8> {
        let (area, room) = (work.as_mut_ptr(), work.len());
        // SAFETY: each slice goes with its own length.
        let answer = unsafe {
            raw::twolsken_verdict(file.as_ptr(), file.len(), text.as_ptr(), text.len(), area, room)
        };
        match answer {
            raw::HOLDS => Ok(true),
            raw::FAILS => Ok(false),
            number => Err(refusal(number)),
        }
    }

    fn numerator(
        &self,
        file: &[u8],
        text: &[u8],
        tuple: &[u8],
        path: usize,
        work: &mut [u64],
    ) -> Result<(u64, u64), u8> {
        let before = [MARK_64; 2];
        let mut value = before;
        // SAFETY: each slice goes with its own length, and the array has the length that the function writes.
        let answer = unsafe {
            raw::twolsken_numerator(
                file.as_ptr(),
                file.len(),
                text.as_ptr(),
                text.len(),
                tuple.as_ptr(),
                tuple.len(),
                path,
                work.as_mut_ptr(),
                work.len(),
                &mut value,
            )
        };
        answered(answer, before, value)?;
        Ok((value[0], value[1]))
    }
}

impl Merges for Proved {
    fn merge(&self, file: &[u8], grouping: &[u8], out: &mut [u8]) -> Result<usize, u8> {
        let (groups, states) = (grouping.as_ptr(), grouping.len());
        // SAFETY: each slice goes with its own length.
        written(unsafe {
            raw::twolsken_merge(file.as_ptr(), file.len(), groups, states, out.as_mut_ptr(), out.len())
        })
    }
}

/// The relations in the order of the header's numbers.
const RELATIONS: [Relation; 5] =
    [Relation::Less, Relation::AtMost, Relation::Equal, Relation::AtLeast, Relation::Greater];

/// A node as the header's three numbers.
fn code_of(node: Node) -> [u32; 3] {
    match node {
        Node::True => [0, 0, 0],
        Node::Label { label, variable } => [1, label.into(), variable.into()],
        Node::Not => [2, 0, 0],
        Node::And => [3, 0, 0],
        Node::Compare(relation) => {
            let place = RELATIONS.iter().position(|other| *other == relation);
            [4, place.expect("one of the five") as u32, 0]
        }
        Node::Probability => [5, 0, 0],
        Node::Constant { top, bottom } => [6, top, bottom],
        Node::Sum => [7, 0, 0],
        Node::Difference => [8, 0, 0],
        Node::Product => [9, 0, 0],
        Node::Next => [10, 0, 0],
        Node::Until { from, to } => [11, from, to],
    }
}

/// The node of three numbers that the library gave; numbers that it does not have are 0.
fn node_of(code: [u32; 3]) -> Node {
    match code {
        [0, 0, 0] => Node::True,
        [1, label, variable] => Node::Label { label: label as u8, variable: variable as u8 },
        [2, 0, 0] => Node::Not,
        [3, 0, 0] => Node::And,
        [4, relation, 0] => Node::Compare(RELATIONS[relation as usize]),
        [5, 0, 0] => Node::Probability,
        [6, top, bottom] => Node::Constant { top, bottom },
        [7, 0, 0] => Node::Sum,
        [8, 0, 0] => Node::Difference,
        [9, 0, 0] => Node::Product,
        [10, 0, 0] => Node::Next,
        [11, from, to] => Node::Until { from, to },
        other => panic!("{other:?} is no node's code"),
    }
}
