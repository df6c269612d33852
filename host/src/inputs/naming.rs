//! Sentences whose paths name some of the variables (document 02, T-02): any of them, fewer inside a path than outside,
//! variables that stand only in a path inside, none at all; and windows on both sides of row 10 by the named variables.

use super::model::{any_with, file_of};
use super::question::{cost, fits, widest_window, Pair};
use super::sentence::{prefix, relation, Loose};
use super::Rng;
use crate::second::meaning::{all_variables, too_large, too_large_by};
use crate::second::sentence::{read_sentence, Node, Sentence};
use crate::second::Model;

/// What a path formula names.
#[derive(Clone, Debug, Default, PartialEq, Eq)]
pub struct Naming {
    /// Whether each variable occurs in it, paths inside it included; place 0 is variable 1.
    pub all: [bool; 4],
    /// Whether each variable occurs in it outside the paths inside it.
    pub own: [bool; 4],
    /// How often variables occur in it, paths inside it included.
    pub occurrences: usize,
    /// The steps of its runs: 1, or k2.
    pub steps: usize,
    /// The number of the path that it stands in, the nearest one.
    pub outer: Option<usize>,
    /// Whether it is a next.
    pub next: bool,
}

impl Naming {
    /// v, the number of different variables.
    pub fn v(&self) -> usize {
        self.all.iter().filter(|&&named| named).count()
    }
}

/// How many operands a node has.
fn operands(node: Node) -> usize {
    match node {
        Node::True | Node::Label { .. } | Node::Constant { .. } => 0,
        Node::Not | Node::Probability | Node::Next => 1,
        _ => 2,
    }
}

/// The end of the node that begins a list, with all that it contains.
pub fn end_of(list: &[Node]) -> usize {
    let mut open = 1;
    for (place, &node) in list.iter().enumerate() {
        open += operands(node);
        open -= 1;
        if open == 0 {
            return place + 1;
        }
    }
    panic!("the list does not nest")
}

/// What each path formula of a sentence names, in written order.
pub fn namings(sentence: &Sentence) -> Vec<Naming> {
    let mut found: Vec<Naming> = Vec::new();
    // The operands that are still to come of each node that is not at its end, and the path that they stand in.
    let mut open: Vec<(usize, Option<usize>)> = vec![(1, None)];
    for &node in &sentence.nodes[..sentence.count] {
        while open.last().is_some_and(|(left, _)| *left == 0) {
            open.pop();
        }
        let (left, outer) = open.last_mut().expect("an open node");
        *left -= 1;
        let mut path = *outer;
        match node {
            Node::Label { variable, .. } => label(&mut found, path, usize::from(variable) - 1),
            Node::Next | Node::Until { .. } => {
                let steps = if let Node::Until { to, .. } = node { to as usize } else { 1 };
                found.push(Naming { steps, outer: path, next: node == Node::Next, ..Naming::default() });
                path = Some(found.len() - 1);
            }
            _ => {}
        }
        open.push((operands(node), path));
    }
    found
}

/// Puts a variable down in the path that it stands in, and in those around.
fn label(found: &mut [Naming], path: Option<usize>, place: usize) {
    let mut around = path;
    if let Some(number) = path {
        found[number].own[place] = true;
    }
    while let Some(number) = around {
        found[number].all[place] = true;
        found[number].occurrences += 1;
        around = found[number].outer;
    }
}

/// What is asked of a pair.
#[derive(Clone, Copy, Debug, PartialEq, Eq)]
pub enum Kind {
    /// Paths that name any of the variables.
    Any,
    /// Paths inside paths.
    Inside,
    /// Refused by 10 if all n variables stepped, and yet answered.
    Wide,
}

/// A pair of a kind, which is answered.
pub fn pair(rng: &mut Rng, kind: Kind) -> Pair {
    let letters = rng.pick(if kind == Kind::Wide { &[2, 3, 3, 4, 4] } else { &[1, 2, 3, 3, 3, 4, 4, 4] });
    let least = if rng.chance(1, 16) { 1 } else { 2 };
    let n = rng.between(least, [0, 6, 4, 4, 3][letters]) as u32;
    let d = match kind {
        Kind::Wide => rng.pick(&[2, 2, 3, 4, 10, 100, 65_535]),
        _ => rng.pick(&[1, 2, 2, 3, 3, 4, 4, 5, 10]),
    };
    let model = any_with(rng, n, 2, d);
    Pair { file: file_of(&model), text: text(rng, &model, letters, kind) }
}

/// A text of a kind that is answered on a model, unless the tuples are too many.
pub fn text(rng: &mut Rng, model: &Model, letters: usize, kind: Kind) -> Vec<u8> {
    loop {
        let text = sentence(rng, model, letters, kind).text();
        let Ok(read) = read_sentence(&text) else { continue };
        let right = kind != Kind::Wide || too_large_by(all_variables, &read, model.d);
        if right && !too_large(&read, model.d) && cost(model, &read) <= 300_000 {
            return text;
        }
    }
}

/// A sentence of a kind, whatever its sizes.
fn sentence(rng: &mut Rng, model: &Model, letters: usize, kind: Kind) -> Loose {
    let prefix = prefix(rng, letters);
    let set: Vec<u8> = (1..=letters as u8).filter(|_| rng.chance(7, 8)).collect();
    let window = match kind {
        Kind::Wide => widest_window(model.d, 1),
        _ => rng.pick(&[1, 2, 2, 3, 6]),
    };
    let depth = rng.between(1 + usize::from(kind == Kind::Inside), 3);
    let mut growing = Growing { rng, labels: model.a.min(2) as usize, window, list: Vec::new() };
    growing.comparison(&set, depth);
    Loose { prefix, list: growing.list }
}

/// A list of nodes being grown. What is grown for a set names each of its variables, and no other.
struct Growing<'a> {
    rng: &'a mut Rng,
    labels: usize,
    window: usize,
    list: Vec<Node>,
}

impl Growing<'_> {
    /// Two sets that make up a set together: each variable goes to one of them or to both.
    fn parts(&mut self, set: &[u8]) -> (Vec<u8>, Vec<u8>) {
        let sides: Vec<usize> = set.iter().map(|_| self.rng.below(4)).collect();
        let part = |other: usize| {
            let kept = set.iter().zip(&sides).filter(|(_, &side)| side != other);
            kept.map(|(&variable, _)| variable).collect()
        };
        (part(0), part(1))
    }

    /// A state formula, with paths inside one another to at most a depth.
    fn formula(&mut self, set: &[u8], depth: usize) {
        match self.rng.below(8) {
            0..=3 if depth > 0 => self.comparison(set, depth),
            4 | 5 => {
                self.list.push(Node::Not);
                self.formula(set, depth);
            }
            _ => match *set {
                [] => self.list.push(Node::True),
                [variable] => {
                    self.list.push(Node::Label { label: self.rng.below(self.labels) as u8, variable })
                }
                _ => {
                    let (left, right) = set.split_at(self.rng.between(1, set.len() - 1));
                    self.list.push(Node::And);
                    self.formula(left, depth);
                    self.formula(right, depth);
                }
            },
        }
    }

    /// A comparison of two expressions.
    fn comparison(&mut self, set: &[u8], depth: usize) {
        let relation = relation(self.rng);
        self.list.push(Node::Compare(relation));
        match self.rng.below(4) {
            0 => {
                self.constant();
                self.expression(set, depth);
            }
            1 => {
                self.expression(set, depth);
                self.constant();
            }
            _ => {
                let (left, right) = self.parts(set);
                self.expression(&left, depth);
                self.expression(&right, depth);
            }
        }
    }

    /// A constant that a probability can be.
    fn constant(&mut self) {
        let (top, bottom) = self.rng.pick(&[(0, 1), (1, 1), (1, 2), (1, 3), (1, 4)]);
        self.list.push(Node::Constant { top, bottom });
    }

    /// An expression: a probability, or two of them.
    fn expression(&mut self, set: &[u8], depth: usize) {
        if self.rng.chance(1, 4) {
            let operation = self.rng.pick(&[Node::Sum, Node::Difference, Node::Product]);
            let (left, right) = self.parts(set);
            self.list.push(operation);
            self.path(&left, depth);
            self.path(&right, depth);
        } else {
            self.path(set, depth);
        }
    }

    /// A probability.
    fn path(&mut self, set: &[u8], depth: usize) {
        self.list.push(Node::Probability);
        if self.rng.chance(1, 3) {
            self.list.push(Node::Next);
            return self.formula(set, depth - 1);
        }
        let to = self.rng.below(self.window + 1) as u32;
        let from = if self.rng.chance(1, 2) { 0 } else { self.rng.below(to as usize + 1) as u32 };
        let (left, right) = self.parts(set);
        self.list.push(Node::Until { from, to });
        self.formula(&left, depth - 1);
        self.formula(&right, depth - 1);
    }
}

/// A body about row 10 all of whose numbers are powers of D, or 0.
#[derive(Clone, Debug)]
pub struct Limit {
    /// The body.
    pub body: String,
    /// The greatest number of the size rule is D to this power.
    pub power: usize,
}

impl Limit {
    /// Whether row 10 applies.
    pub fn refused(&self, d: u32) -> bool {
        !fits(d, self.power)
    }
}

/// Windows on both sides of row 10 for v named variables, and some far from it.
fn windows(d: u32, v: usize) -> Vec<usize> {
    let widest = widest_window(d, v);
    let mut list = vec![0, 1, widest / 2, widest, (widest + 1).min(60), 60];
    list.sort_unstable();
    list.dedup();
    list
}

/// Bodies about row 10 for a D and a set of variables: alone in a path, half of them in a path inside, and beside other paths.
pub fn limits(d: u32, set: &[u8]) -> Vec<Limit> {
    let v = set.len();
    let all = conjunction(set);
    let (front, back) = set.split_at(v / 2);
    let (front, back) = (conjunction(front), conjunction(back));
    let mut list = vec![
        Limit { body: format!("GPX{all}#0/1;"), power: v },
        Limit { body: format!("<#0/1;PX>PX{front}PX{back}"), power: v },
        Limit { body: format!("=*PX{all}PX{all}#1/1;"), power: 2 * v },
    ];
    for k in windows(d, v) {
        // Each variable occurs twice.
        list.push(Limit { body: format!("GPU0,{k}:{all}{all}#0/1;"), power: v * k });
        list.push(Limit { body: format!("L#1/1;PU{k},{k}:{front}{back}"), power: v * k });
        // The path inside names the back alone, the path around it both.
        let inside = format!("PU0,{k}:{front}>PX{back}#0/1;");
        list.push(Limit { body: format!("<{inside}#1/1;"), power: (v * k).max(v - v / 2) });
        // Beside a path that names nothing the denominator stays.
        list.push(Limit { body: format!("=PU0,60:TTPU0,{k}:{all}T"), power: v * k });
        let half = k / 2;
        list.push(Limit { body: format!("<PU0,{half}:{all}TPU0,{}:T{all}", k - half), power: v * k });
    }
    list
}

/// A formula that names just so many of the variables of a prefix.
pub fn named_by(rng: &mut Rng, letters: usize, v: usize) -> String {
    let mut variables: Vec<u8> = (1..=letters as u8).collect();
    rng.shuffle(&mut variables);
    let not = rng.pick(&["", "!"]);
    format!("{not}{}", conjunction(&variables[..v]))
}

/// A formula that names each variable of a set, and no other.
fn conjunction(set: &[u8]) -> String {
    match set {
        [] => "T".to_string(),
        [variable] => format!("a{variable}"),
        [variable, rest @ ..] => format!("&a{variable}{}", conjunction(rest)),
    }
}

#[cfg(test)]
mod tests {
    use super::*;

    #[test]
    fn namings_are_those_of_the_words() {
        let sentence = read_sentence(b"AAAA.&a1GPU0,7:!b2>PX&a4a4PXTPX=PU0,2:a1a3#1/2;").unwrap();
        let told: Vec<_> = namings(&sentence)
            .iter()
            .map(|path| (path.v(), path.occurrences, path.steps, path.outer, path.next))
            .collect();
        let expected = [
            (2, 3, 7, None, false),
            (1, 2, 1, Some(0), true),
            (0, 0, 1, Some(0), true),
            (2, 2, 1, None, true),
            (2, 2, 2, Some(3), false),
        ];
        assert_eq!(told, expected);
        assert_eq!(namings(&sentence)[0].own, [false, true, false, false]);
        assert_eq!(namings(&sentence)[0].all, [false, true, false, true]);
        assert_eq!(namings(&sentence)[3].own, [false; 4]);
    }

    #[test]
    fn a_grown_sentence_names_a_set_and_no_other_variable() {
        let mut rng = Rng::new(7);
        for set in [vec![], vec![2], vec![1, 4], vec![1, 2, 3, 4]] {
            for _ in 0..300 {
                let mut growing = Growing { rng: &mut rng, labels: 2, window: 3, list: Vec::new() };
                growing.path(&set, 3);
                let mut named: Vec<u8> = growing
                    .list
                    .iter()
                    .filter_map(
                        |node| if let Node::Label { variable, .. } = node { Some(*variable) } else { None },
                    )
                    .collect();
                named.sort_unstable();
                named.dedup();
                assert_eq!(named, set);
            }
        }
    }
}
