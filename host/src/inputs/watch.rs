//! Untils to be watched for longer (document 02, T-09): pairs whose sentence has an until, and the same pairs with another
//! window for it.

use super::model::{any_with, file_of, throw};
use super::naming::{self, named_by, namings, Naming};
use super::question::{self, widest_window, Pair};
use super::{extreme, Rng};
use crate::second::meaning::too_large;
use crate::second::sentence::spelled;
use crate::second::{read_model, read_sentence, Model, Node, Sentence};

/// The most that row 7 lets k2 be.
const LAST: u32 = 60;

/// What is asked of a pair.
#[derive(Clone, Copy, Debug, PartialEq, Eq)]
pub enum Kind {
    /// Sentences of any form on few tuples.
    Any,
    /// Runs that match for the first time at any moment, for each v from 1 to 4.
    Later,
    /// Windows near those that rows 7 and 10 refuse.
    Ends,
    /// About 1,024 tuples.
    Full,
}

/// A pair that can be read, and one until of its sentence.
#[derive(Clone, Debug)]
pub struct Watch {
    /// The number of the until among the path formulas.
    pub path: usize,
    /// k1, the first moment of its window.
    pub from: u32,
    /// k2, the last moment of its window.
    pub to: u32,
    /// What it names.
    pub naming: Naming,
    /// Whether a path stands inside it.
    pub around: bool,
    /// The model of the pair.
    pub model: Model,
    /// The sentence of the pair.
    pub sentence: Sentence,
    /// The file of the model.
    file: Vec<u8>,
    /// The place of the until among the nodes.
    place: usize,
}

impl Watch {
    /// Some until of a pair of a kind.
    pub fn any(rng: &mut Rng, kind: Kind) -> Watch {
        loop {
            let pair = pair(rng, kind);
            let paths = read_sentence(&pair.text).map_or(0, |sentence| sentence.path_places().count());
            let mut untils: Vec<Watch> = (0..paths).filter_map(|path| Watch::of(&pair, path)).collect();
            if !untils.is_empty() {
                return untils.swap_remove(rng.below(untils.len()));
            }
        }
    }

    /// The until with a number among the path formulas of a pair; nothing if there is none, or if the pair cannot be read.
    pub fn of(pair: &Pair, path: usize) -> Option<Watch> {
        let (model, sentence) = (read_model(&pair.file).ok()?, read_sentence(&pair.text).ok()?);
        let place = sentence.path_places().nth(path)?;
        let Node::Until { from, to } = sentence.nodes[place] else { return None };
        let mut paths = namings(&sentence);
        let around = paths.iter().any(|other| other.outer == Some(path));
        let naming = paths.swap_remove(path);
        Some(Watch { path, from, to, naming, around, model, sentence, file: pair.file.clone(), place })
    }

    /// The sentence with another window for the until.
    fn sentence_with(&self, from: u32, to: u32) -> Sentence {
        let mut sentence = self.sentence.clone();
        sentence.nodes[self.place] = Node::Until { from, to };
        sentence
    }

    /// The pair with another window for the until.
    pub fn pair_with(&self, from: u32, to: u32) -> Pair {
        let sentence = self.sentence_with(from, to);
        let text = spelled(&sentence.exists[..sentence.letters], &sentence.nodes[..sentence.count]);
        Pair { file: self.file.clone(), text }
    }

    /// By how many steps, from two on, k2 is to grow: by as many as rows 7 and 10 let through, or by fewer. Nothing if they do
    /// not let two through.
    pub fn several(&self, rng: &mut Rng) -> Option<u32> {
        let through = |steps: &u32| !too_large(&self.sentence_with(self.from, self.to + steps), self.model.d);
        let most = (2..=LAST - self.to).take_while(through).last()?;
        let any = rng.between(2, most as usize) as u32;
        Some(rng.pick(&[2, any, any, most]))
    }

    /// D^(v × steps), the weight of all that the named variables do in so many steps.
    pub fn factor(&self, steps: u32) -> u128 {
        u128::from(self.model.d).pow(self.naming.v() as u32 * steps)
    }
}

/// A pair of a kind, with or without an until.
pub fn pair(rng: &mut Rng, kind: Kind) -> Pair {
    match (kind, rng.below(8)) {
        (Kind::Any, 0) => question::fitting(rng),
        (Kind::Any, 1..=3) => naming::pair(rng, naming::Kind::Inside),
        (Kind::Any, _) => naming::pair(rng, naming::Kind::Any),
        (Kind::Later, _) => {
            let letters = rng.between(1, 4);
            let n = rng.between(2, [0, 6, 4, 3, 3][letters]) as u32;
            later(rng, n, letters)
        }
        (Kind::Ends, 0 | 1) => question::at_size_limit(rng),
        (Kind::Ends, 2 | 3) => extreme::pair(rng, extreme::Kind::LongWindow),
        (Kind::Ends, 4) => extreme::pair(rng, extreme::Kind::End),
        (Kind::Ends, _) => naming::pair(rng, naming::Kind::Wide),
        (Kind::Full, 0 | 1) => extreme::pair(rng, extreme::Kind::Tuples),
        (Kind::Full, _) => {
            let (n, letters) = rng.pick(&[(32, 2), (32, 2), (31, 2), (10, 3), (5, 4)]);
            later(rng, n, letters)
        }
    }
}

/// A pair with an until, by itself, inside a path or around one. The label `a` is found on the way, but not at once.
fn later(rng: &mut Rng, n: u32, letters: usize) -> Pair {
    let (v, d) = (rng.between(1, letters), rng.pick(&[2, 2, 3, 4, 10]));
    let found = named_by(rng, letters, v);
    let kept = found.replace('a', "b");
    let first = match rng.below(5) {
        0 => kept,
        1 => format!("!{kept}"),
        _ => "T".to_string(),
    };
    let to = rng.below(widest_window(d, v).min(5));
    let from = if rng.chance(1, 2) { 0 } else { rng.below(to + 1) };
    let until = match rng.below(4) {
        0 => format!("PU{from},{to}:{first}>PX{found}#1/{};", rng.between(2, 9)),
        _ => format!("PU{from},{to}:{first}{found}"),
    };
    let relation = char::from(rng.pick(b"<L=G>"));
    let body = match rng.below(4) {
        0 => format!("{relation}#1/2;{until}"),
        1 => format!("GPX{relation}{until}#1/2;#1/3;"),
        2 => format!("<PU0,1:{relation}{until}#1/2;{found}#2/3;"),
        _ => format!("{relation}{until}#1/2;"),
    };
    let prefix: String = (0..letters).map(|_| char::from(rng.pick(b"AE"))).collect();
    Pair { file: file_of(&spread(rng, n, d)), text: format!("{prefix}.{body}").into_bytes() }
}

/// A model of either version whose written rows are mostly thrown over the states, one unit of D after another. Its last
/// state has the label `a` alone; some of the others have `b`.
fn spread(rng: &mut Rng, n: u32, d: u32) -> Model {
    let mut model = any_with(rng, n, 2, d);
    for state in 0..n as usize {
        model.masks[state] = if state + 1 == n as usize { 1 } else { rng.pick(&[0, 2]) };
        if !model.row_is_empty(state) && rng.chance(7, 8) {
            throw(rng, &mut model, state);
        }
    }
    model
}

#[cfg(test)]
mod tests {
    use super::*;
    use crate::second::model::examples::m1;

    #[test]
    fn a_watch_is_of_an_until_and_changes_its_window_alone() {
        let text = b"AA.=PXa1PU2,3:T>PU0,28:a1&a2a2#1/2;".to_vec();
        let pair = Pair { file: file_of(&m1()), text };
        let [outer, inner] = [1, 2].map(|path| Watch::of(&pair, path).unwrap());
        assert_eq!((outer.path, outer.from, outer.to, outer.around), (1, 2, 3, true));
        assert_eq!((inner.path, inner.from, inner.to, inner.around), (2, 0, 28, false));
        assert_eq!((inner.naming.v(), inner.naming.outer, inner.factor(3)), (2, Some(1), 4_096));
        assert_eq!(outer.pair_with(2, 14).text, b"AA.=PXa1PU2,14:T>PU0,28:a1&a2a2#1/2;");
        assert_eq!(inner.pair_with(1, 7).text, b"AA.=PXa1PU2,3:T>PU1,7:a1&a2a2#1/2;");
        assert!(Watch::of(&pair, 0).is_none() && Watch::of(&pair, 3).is_none());
    }

    #[test]
    fn several_steps_end_where_rows_7_and_10_do() {
        let mut rng = Rng::new(9);
        for (text, ends) in [
            ("A.GPU0,28:Ta1#0/1;", Some((30, 31))),
            ("A.GPU3,3:TT#0/1;", Some((5, 60))),
            ("AA.GPU0,9:a1a2#0/2;", Some((11, 15))),
            ("A.GPU0,30:Ta1#0/1;", None),
            ("A.GPU0,59:TT#0/1;", None),
            ("A.GPU0,60:TT#0/1;", None),
        ] {
            let pair = Pair { file: file_of(&m1()), text: text.as_bytes().to_vec() };
            let watch = Watch::of(&pair, 0).unwrap();
            let several: Vec<Option<u32>> = (0..400).map(|_| watch.several(&mut rng)).collect();
            let reached = several.iter().flatten().map(|steps| watch.to + steps);
            assert_eq!(reached.clone().min().zip(reached.max()), ends, "{text}");
            assert!(several.iter().all(|steps| steps.is_some() == ends.is_some()), "{text}");
        }
    }
}
