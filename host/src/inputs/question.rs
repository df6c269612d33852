//! Pairs of a model file and a sentence text: such as are answered, such as
//! each row of a verdict refuses, and such as stand at an end of the size rule;
//! and lengths of work areas for them.

use super::model::{self, any_with, file_of, unfill};
use super::naming::{self, named_by, namings};
use super::sentence::{self, Lean, Loose, Taste};
use super::Rng;
use crate::second::meaning::{answer, too_large, tuple_count, Way, ENOUGH, PER_TUPLE, TUPLES};
use crate::second::sentence::{read_sentence, Node, Sentence, LETTERS};
use crate::second::Model;

/// A model file and a sentence text.
#[derive(Clone, Debug)]
pub struct Pair {
    /// The model file.
    pub file: Vec<u8>,
    /// The sentence text.
    pub text: Vec<u8>,
}

/// The longest work area that is lent.
const LONGEST: usize = 2 * ENOUGH;

impl Pair {
    /// N and n, by the byte of the head and the letters before the dot. A pair that is refused may have any, or none.
    fn states_and_letters(&self) -> Option<(usize, u32)> {
        let states = *self.file.get(1)?;
        let letters = self.text.iter().position(|&byte| byte == b'.')?;
        (letters <= LETTERS).then_some((states.into(), letters as u32))
    }

    /// The numbers of work area that the question needs: 8 × T.
    pub fn room(&self) -> Option<usize> {
        let (states, letters) = self.states_and_letters()?;
        Some(PER_TUPLE * states.pow(letters))
    }

    /// Lengths of work areas on both sides of what the question needs, and what a library could take for it: fewer for each
    /// tuple, as many for each state, enough for every question, nothing.
    pub fn rooms(&self) -> Vec<usize> {
        let mut list = vec![0, 1, ENOUGH - 1, ENOUGH, ENOUGH + 1, 9_000];
        if let Some((states, letters)) = self.states_and_letters() {
            let tuples = states.pow(letters);
            let room = PER_TUPLE * tuples;
            list.extend([tuples, room - tuples, PER_TUPLE * states]);
            list.extend([room.saturating_sub(1), room, room + 1, room + 3, room + tuples]);
        }
        list.retain(|&length| length <= LONGEST);
        list.sort_unstable();
        list.dedup();
        list
    }

    /// Any length of a work area: in most cases just what the question needs or a little more, else on both sides of it.
    pub fn any_room(&self, rng: &mut Rng) -> usize {
        match rng.below(10) {
            0..=7 => self.enough_room(rng),
            8 => rng.below(2 * self.room().map_or(ENOUGH, |room| room.clamp(1, ENOUGH))),
            _ => rng.pick(&self.rooms()),
        }
    }

    /// A length of a work area that does not refuse the question: half of them just what it needs. Any length where that is
    /// not known, or too long to be lent.
    pub fn enough_room(&self, rng: &mut Rng) -> usize {
        let more = if rng.chance(1, 2) { 0 } else { rng.between(1, 40) };
        let room = self.room().map(|room| room + more).filter(|&room| room <= LONGEST);
        room.unwrap_or_else(|| rng.pick(&self.rooms()))
    }
}

/// A pair of any kind, most of them answered.
pub fn pair(rng: &mut Rng) -> Pair {
    match rng.below(40) {
        0..=2 => Pair { file: model::file(rng), ..fitting(rng) },
        3 | 4 => Pair { text: sentence::text(rng), ..fitting(rng) },
        5 => Pair { file: model::file(rng), text: sentence::text(rng) },
        6 => with_label_beyond(rng),
        7..=9 => at_size_limit(rng),
        10 => at_tuple_limit(rng),
        11 => near(rng),
        12 => several(rng),
        13..=20 => tight(rng),
        21 => naming::pair(rng, naming::Kind::Any),
        22 => naming::pair(rng, naming::Kind::Inside),
        23 => naming::pair(rng, naming::Kind::Wide),
        _ => fitting(rng),
    }
}

/// A pair that is nearly always answered.
pub fn fitting(rng: &mut Rng) -> Pair {
    let most = if rng.chance(1, 40) { TUPLES } else { rng.pick(&[4, 16, 16, 27, 36, 64, 81]) };
    let (model, letters) = chain(rng, most);
    let size = match rng.below(6) {
        0 => rng.between(1, 64),
        1 => rng.between(1, 30),
        _ => rng.between(1, 12),
    };
    let loose = fitting_sentence(rng, &model, letters, size);
    Pair { file: file_of(&model), text: loose.text() }
}

/// A model of either version, of few labels and, mostly, a small D, and a number of
/// letters with which it has at most so many tuples.
pub fn chain(rng: &mut Rng, tuples: usize) -> (Model, usize) {
    let letters = rng.pick(&[1, 1, 1, 2, 2, 2, 3, 4]);
    let most = (1..=32usize).rev().find(|n| n.pow(letters as u32) <= tuples).unwrap_or(1);
    let n = rng.between(most.min(2), most);
    let any = rng.between(1, 65_535) as u32;
    let d = rng.pick(&[1, 1, 2, 2, 2, 2, 3, 3, 4, 4, 5, 6, 10, 100, 65_535, any]);
    let a = rng.between(1, 3) as u32;
    (any_with(rng, n as u32, a, d), letters)
}

/// Whether D to a power is at most 2^62.
pub fn fits(d: u32, power: usize) -> bool {
    let end = 1u128 << 62;
    (0..power).try_fold(1u128, |x, _| Some(x * u128::from(d)).filter(|&x| x <= end)).is_some()
}

/// The greatest k up to 60 with D to the power v × k at most 2^62, for v named variables.
pub fn widest_window(d: u32, v: usize) -> usize {
    (0..=60).take_while(|k| fits(d, v * k)).last().unwrap_or(0)
}

/// A sentence of about the given size that the size rule allows on a model, if
/// a few attempts find one.
pub fn fitting_sentence(rng: &mut Rng, model: &Model, letters: usize, size: usize) -> Loose {
    let widest = widest_window(model.d, rng.between(1, letters));
    let lean = rng.pick(&[Lean::Any, Lean::Any, Lean::Left, Lean::Right, Lean::Even]);
    let work = if rng.chance(1, 100) { 3_000_000 } else { 30_000 };
    let mut found = None;
    for attempt in 0..8 {
        let window = rng.pick(&[1, 1, 2, 3, 5, 8, widest / 3, widest]).min(widest).min(60 >> attempt);
        let (top, bottom) = rng.pick(&[(9, 1), (2, 2), (3, 3), (4, 4), (60, 60)]);
        let taste = Taste { variables: letters, labels: model.a as usize, window, top, bottom, lean };
        let size = (size >> (attempt / 2)).max(1);
        let loose = sentence::sentence(rng, &taste, size);
        let fits = |read: &Sentence| !too_large(read, model.d) && cost(model, read) <= work;
        let good = read_sentence(&loose.text()).is_ok_and(|read| fits(&read));
        found = Some(loose);
        if good {
            break;
        }
    }
    found.expect("there is an attempt")
}

/// About how many products the steps of a sentence's paths take on a model; a step of no variable counts as one a tuple.
pub fn cost(model: &Model, sentence: &Sentence) -> usize {
    let (n, tuples) = (model.n as usize, tuple_count(model, sentence));
    namings(sentence).iter().map(|path| path.steps * (path.v() * n).max(1) * tuples).sum()
}

/// A pair whose body compares a path's probability with a constant that is its
/// value at some tuple, or one unit beside it.
pub fn tight(rng: &mut Rng) -> Pair {
    let (model, letters) = chain(rng, 36);
    let window = widest_window(model.d, letters).min(rng.between(1, 4));
    let labels = model.a as usize;
    let taste = Taste { variables: letters, labels, window, top: 3, bottom: 3, lean: Lean::Any };
    let size = rng.between(2, 9);
    let path = sentence::path(rng, &taste, size);
    let file = file_of(&model);
    let mut loose = Loose { prefix: sentence::prefix(rng, letters), list: Vec::new() };
    loose.list = vec![Node::Compare(sentence::relation(rng)), Node::Probability];
    loose.list.extend_from_slice(&path);
    loose.list.push(Node::Constant { top: 1, bottom: 1 });
    if let Ok(found) = answer(&file, &loose.text(), Way::Table) {
        let bottom = found.paths[0].bottom;
        let top = rng.pick(&found.paths[0].tops);
        let top = rng.pick(&[top, top, top, top + 1, top.saturating_sub(1)]);
        if bottom <= 65_535 && top <= 65_535 {
            loose.list.pop();
            loose.list.push(Node::Constant { top: top as u32, bottom: bottom as u32 });
        }
    }
    Pair { file, text: loose.text() }
}

/// A pair that compares a probability with a constant from which it differs by
/// less than a rounded division shows: state 0 reaches state 1 within k steps
/// with (g / (D − 1)) × (1 − 1 / D^k).
fn near(rng: &mut Rng) -> Pair {
    let d = rng.pick(&[2, 3, 3, 4, 5, 8, 10, 1_000, 65_535]);
    let goal = rng.between(1, d - 1);
    let mut model = Model { n: 3, a: 2, d: d as u32, ..Model::empty() };
    model.masks[..3].copy_from_slice(&[2, 1, 0]);
    model.weights[0][..3].copy_from_slice(&[1, goal as u16, (d - 1 - goal) as u16]);
    model.weights[1][1] = d as u16;
    model.weights[2][2] = d as u16;
    if rng.chance(1, 2) {
        unfill(rng, &mut model);
    }
    let window = widest_window(d as u32, 1).max(1) - 1;
    let relation = char::from(rng.pick(b"<L=G>"));
    let compared = format!("{relation}PU0,{window}:Ta1#{goal}/{};", d - 1);
    let text = match rng.below(3) {
        0 => format!("E.&b1{compared}"),
        1 => format!("A.!&b1!{compared}"),
        _ => format!("{}.{compared}", char::from(rng.pick(b"AE"))),
    };
    Pair { file: file_of(&model), text: text.into_bytes() }
}

/// A pair whose sentence names a label near A, on either side.
fn with_label_beyond(rng: &mut Rng) -> Pair {
    let (mut model, letters) = chain(rng, 36);
    model.a = rng.between(model.a as usize, 16) as u32;
    let label = ((model.a as usize) + rng.below(3)).saturating_sub(1).min(15) as u8;
    let variable = rng.between(1, letters) as u8;
    let mut loose =
        Loose { prefix: sentence::prefix(rng, letters), list: vec![Node::Label { label, variable }] };
    if rng.chance(1, 2) {
        loose.list.insert(0, Node::Next);
        loose.list.insert(0, Node::Probability);
        loose.list.insert(0, Node::Compare(sentence::relation(rng)));
        loose.list.push(Node::Constant { top: 1, bottom: 2 });
    }
    Pair { file: file_of(&model), text: loose.text() }
}

/// A pair whose number of tuples stands near 1,024, on either side.
fn at_tuple_limit(rng: &mut Rng) -> Pair {
    let (n, letters) =
        rng.pick(&[(32, 1), (31, 2), (32, 2), (10, 3), (11, 3), (5, 4), (6, 4), (32, 3), (32, 4), (1, 4)]);
    let d = rng.between(1, 3) as u32;
    let model = any_with(rng, n, 2, d);
    let prefix = "AE".repeat(2)[..letters].to_string();
    let body = rng.pick(&["T", "a1", "!&a1b1", "=PXa1PXb1", "LPU0,2:a1b1#1/2;", "<#1/2;#1/3;"]);
    Pair { file: file_of(&model), text: format!("{prefix}.{body}").into_bytes() }
}

/// A pair to which each of rows 6 to 11 applies or not, by chance.
fn several(rng: &mut Rng) -> Pair {
    let (n, letters) = rng.pick(&[(2, 3), (5, 4), (11, 3), (6, 4), (32, 2)]);
    let d = rng.pick(&[1, 2, 65_535]);
    let label = rng.pick(&["a1", "a1", "b1", "p2"]);
    let variable = rng.pick(&["a1", "a2", "a4"]);
    let to = rng.pick(&[1, 1, 3, 21, 22, 60, 61]);
    let back = rng.pick(&["", "", "", "", "T"]);
    let many = "!".repeat(rng.pick(&[0, 0, 57, 58, 59, 60]));
    let text = format!("{}.{many}LPU1,{to}:{variable}{label}#0/1;{back}", &"AEAE"[..letters]);
    Pair { file: file_of(&any_with(rng, n, 1, d)), text: text.into_bytes() }
}

/// A pair whose sizes stand at an end of the size rule, on either side.
pub fn at_size_limit(rng: &mut Rng) -> Pair {
    let any = rng.between(2, 65_535) as u32;
    let d = rng.pick(&[1, 2, 2, 3, 4, 5, 7, 10, 16, 255, 256, 46_340, 65_535, any]);
    let letters = rng.between(1, 4);
    let n = rng.between(1, 3) as u32;
    let model = any_with(rng, n, 1, d);
    let v = rng.between(1, letters);
    let widest = widest_window(d, v);
    let window = rng.pick(&[widest, widest, widest + 1, rng.clone().below(widest + 1)]);
    let steps = (v * window) as u32;
    let left = (1u128 << 62) / u128::from(d).checked_pow(steps).unwrap_or(1 << 62).max(1);
    let end = (left + rng.below(3) as u128).saturating_sub(1).min(65_536);
    let named = named_by(rng, letters, v);
    let until = format!("PU{},{window}:T{named}", rng.below(2).min(window));
    let half = window / 2;
    let body = match rng.below(11) {
        0 => format!("G{until}#0/1;"),
        1 => format!("G{until}#0/{end};"),
        2 => format!("G{until}#{end}/1;"),
        3 => format!("L#1/{end};{until}"),
        4 => format!("=*{until}#{end}/1;#1/1;"),
        5 => format!("=*#1/{end};{until}#0/1;"),
        6 => format!("<+{until}#{end}/1;#1/1;"),
        7 => format!("<-PU0,{half}:{named}TPU0,{}:T{named}#{end}/1;", window - half),
        8 => format!(">+PU0,{half}:T{named}PU0,{}:{named}{named}#1/{end};", window - half),
        9 => format!("GPX>{until}#{end}/1;#1/1;"),
        _ => format!("=PU0,1:T!<#1/{end};{until}#1/1;"),
    };
    let text = format!("{}.{body}", &"AEAE"[..letters]);
    Pair { file: file_of(&model), text: text.into_bytes() }
}

#[cfg(test)]
mod tests {
    use super::*;

    #[test]
    fn the_widest_window_is_that_of_the_examples() {
        assert_eq!(widest_window(4, 1), 31);
        assert_eq!(widest_window(1, 4), 60);
        assert_eq!(widest_window(2, 1), 60);
        assert_eq!(widest_window(3, 1), 39);
        assert_eq!(widest_window(65_535, 4), 0);
        assert_eq!(widest_window(65_535, 0), 60);
    }
}
