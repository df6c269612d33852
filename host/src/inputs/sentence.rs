//! Sentences grown from the grammar, texts and records, right and wrong.

use super::Rng;
use crate::second::sentence::{spelled, Node, Relation, Sentence, LETTERS, NODES};

/// A prefix and a list of nodes of any lengths.
#[derive(Clone, Debug)]
pub struct Loose {
    /// Whether each letter is `E`.
    pub prefix: Vec<bool>,
    /// The nodes in written order.
    pub list: Vec<Node>,
}

impl Loose {
    /// The text, node by node.
    pub fn text(&self) -> Vec<u8> {
        spelled(&self.prefix, &self.list)
    }
}

/// How the two operands of a node share the nodes between them.
#[derive(Clone, Copy, Debug)]
pub enum Lean {
    /// By chance.
    Any,
    /// The left one gets nearly all.
    Left,
    /// The right one gets nearly all.
    Right,
    /// Each gets half.
    Even,
}

/// What grown sentences are made of.
#[derive(Clone, Copy, Debug)]
pub struct Taste {
    /// Variables 1..variables are named.
    pub variables: usize,
    /// Labels below this are named.
    pub labels: usize,
    /// The most that k2 is.
    pub window: usize,
    /// The most that a constant's top is.
    pub top: usize,
    /// The most that a constant's bottom is.
    pub bottom: usize,
    /// How operands share the nodes.
    pub lean: Lean,
}

impl Taste {
    /// Everything that the grammar and row 7 allow.
    pub fn all(rng: &mut Rng, variables: usize) -> Taste {
        let lean = rng.pick(&[Lean::Any, Lean::Any, Lean::Left, Lean::Right, Lean::Even]);
        Taste { variables, labels: 16, window: 60, top: 65_535, bottom: 65_535, lean }
    }
}

/// A prefix of so many letters.
pub fn prefix(rng: &mut Rng, letters: usize) -> Vec<bool> {
    (0..letters).map(|_| rng.chance(1, 2)).collect()
}

/// A sentence of exactly `size` nodes that keeps every rule but those of length.
pub fn sentence(rng: &mut Rng, taste: &Taste, size: usize) -> Loose {
    let prefix = prefix(rng, taste.variables);
    let mut growing = Growing { rng, taste, list: Vec::new() };
    growing.formula(size);
    Loose { prefix, list: growing.list }
}

/// A path formula of exactly `size` nodes, from 2 on.
pub fn path(rng: &mut Rng, taste: &Taste, size: usize) -> Vec<Node> {
    let mut growing = Growing { rng, taste, list: Vec::new() };
    growing.path(size);
    growing.list
}

/// A sentence of any taste whose size is mostly within the limits.
pub fn any_sentence(rng: &mut Rng) -> Loose {
    let letters = rng.between(1, LETTERS);
    let taste = Taste::all(rng, letters);
    let size = match rng.below(8) {
        0 => rng.between(60, 70),
        1 => rng.between(65, 120),
        2 | 3 => rng.between(1, 8),
        _ => rng.between(1, 64),
    };
    sentence(rng, &taste, size)
}

/// A list of nodes that grows in written order.
struct Growing<'a> {
    rng: &'a mut Rng,
    taste: &'a Taste,
    list: Vec<Node>,
}

impl Growing<'_> {
    /// Two sizes, each from 1 on, that add up to `total`.
    fn halves(&mut self, total: usize) -> (usize, usize) {
        let left = match self.taste.lean {
            Lean::Any => self.rng.between(1, total - 1),
            Lean::Left => total - self.rng.between(1, 3).min(total - 1),
            Lean::Right => self.rng.between(1, 3).min(total - 1),
            Lean::Even => total / 2,
        };
        (left, total - left)
    }

    /// A state formula of exactly `size` nodes.
    fn formula(&mut self, size: usize) {
        match (size, self.rng.below(8)) {
            (1, 0) => self.list.push(Node::True),
            (1, _) => {
                let label = self.rng.below(self.taste.labels) as u8;
                let variable = self.rng.between(1, self.taste.variables) as u8;
                self.list.push(Node::Label { label, variable });
            }
            (2, _) | (_, 0) => {
                self.list.push(Node::Not);
                self.formula(size - 1);
            }
            // A comparison of three nodes has two constants, and is the same everywhere.
            (4, _) | (3, 3..=6) | (_, 1 | 2) => {
                self.list.push(Node::And);
                let (left, right) = self.halves(size - 1);
                self.formula(left);
                self.formula(right);
            }
            _ => {
                let relation = relation(self.rng);
                self.list.push(Node::Compare(relation));
                self.expressions(size - 1);
            }
        }
    }

    /// Two expressions of exactly `total` nodes together, which is 2 or from 4 on.
    fn expressions(&mut self, total: usize) {
        let (mut left, mut right) = self.halves(total);
        // No expression has two nodes.
        if left == 2 || right == 2 {
            (left, right) = (1, total - 1);
        }
        self.expression(left);
        self.expression(right);
    }

    /// An expression of exactly `size` nodes, which is not 2.
    fn expression(&mut self, size: usize) {
        match (size, self.rng.below(6)) {
            (1, _) => {
                let constant = constant(self.rng, self.taste);
                self.list.push(constant);
            }
            (4, _) | (_, 0..=2) => {
                self.list.push(Node::Probability);
                self.path(size - 1);
            }
            (_, kind) => {
                self.list.push([Node::Sum, Node::Difference, Node::Product][kind - 3]);
                self.expressions(size - 1);
            }
        }
    }

    /// A path of exactly `size` nodes, from 2 on.
    fn path(&mut self, size: usize) {
        if size == 2 || self.rng.chance(1, 4) {
            self.list.push(Node::Next);
            self.formula(size - 1);
        } else {
            let least = usize::from(self.rng.chance(7, 8)).min(self.taste.window);
            let to = self.rng.between(least, self.taste.window);
            let from = if self.rng.chance(1, 2) { 0 } else { self.rng.between(0, to) };
            self.list.push(Node::Until { from: from as u32, to: to as u32 });
            let (left, right) = self.halves(size - 1);
            self.formula(left);
            self.formula(right);
        }
    }
}

/// One of the five relations.
pub fn relation(rng: &mut Rng) -> Relation {
    rng.pick(&[Relation::Less, Relation::AtMost, Relation::Equal, Relation::AtLeast, Relation::Greater])
}

/// A constant of a taste: most often one that a probability can be.
fn constant(rng: &mut Rng, taste: &Taste) -> Node {
    let widest = if rng.chance(1, 3) { taste.bottom } else { taste.bottom.min(4) };
    let bottom = rng.between(1, widest);
    let most = match rng.below(4) {
        0 => taste.top,
        _ => taste.top.min(bottom),
    };
    Node::Constant { top: rng.between(0, most) as u32, bottom: bottom as u32 }
}

/// The bytes of the grammar.
const ALPHABET: &[u8] = b"AE.Tabcp1234!&<L=G>P#/;+-*XU0,:569";

/// A text of any kind: right, damaged, or at a limit.
pub fn text(rng: &mut Rng) -> Vec<u8> {
    match rng.below(12) {
        0..=3 => any_sentence(rng).text(),
        4..=6 => {
            let text = any_sentence(rng).text();
            damaged(rng, text)
        }
        7..=10 => at_a_limit(rng),
        _ => (0..rng.below(20)).map(|_| rng.pick(ALPHABET)).collect(),
    }
}

/// A text with one to three bytes changed, put in or taken out.
pub fn damaged(rng: &mut Rng, mut text: Vec<u8>) -> Vec<u8> {
    for _ in 0..rng.between(1, 3) {
        let byte = if rng.chance(1, 4) { rng.byte() } else { rng.pick(ALPHABET) };
        let place = rng.below(text.len() + 1);
        match rng.below(3) {
            0 => text.insert(place, byte),
            _ if place == text.len() => {}
            1 => text[place] = byte,
            _ => {
                text.remove(place);
            }
        }
    }
    text
}

/// A text at one side of one limit.
pub fn at_a_limit(rng: &mut Rng) -> Vec<u8> {
    match rng.below(12) {
        0 => of_size(rng),
        1 | 2 => of_text_length(rng),
        3..=5 => with_another_number(rng),
        6 | 7 => with_spoiled_node(rng),
        8 => with_another_prefix(rng),
        9 => with_another_label(rng),
        10 => {
            let (mut text, byte) = (any_sentence(rng).text(), rng.between(128, 255) as u8);
            let place = rng.below(text.len());
            text[place] = byte;
            text
        }
        _ => {
            let mut text = any_sentence(rng).text();
            match rng.below(3) {
                0 => text.truncate(text.len() - 1),
                1 => text.push(rng.pick(b"T\n ;")),
                _ => text.truncate(rng.below(text.len() + 1)),
            }
            text
        }
    }
}

/// A text of 63 to 66 nodes.
fn of_size(rng: &mut Rng) -> Vec<u8> {
    let letters = rng.between(1, LETTERS);
    let mut taste = Taste::all(rng, letters);
    // Short numbers, that the text stays within 400 bytes.
    (taste.window, taste.top, taste.bottom) = (9, 99, 9);
    let size = rng.between(63, 66);
    sentence(rng, &taste, size).text()
}

/// A text of 398 to 402 bytes: few nodes with long constants, or many nodes.
fn of_text_length(rng: &mut Rng) -> Vec<u8> {
    let target = rng.between(398, 402);
    if rng.chance(1, 3) {
        let mut text = b"A.".to_vec();
        text.resize(target - 2, b'!');
        text.extend_from_slice(rng.pick(&[b"a1", b"p1", b"a2", b"!T"]));
        return text;
    }
    // c constants under c − 2 sums and one comparison; each byte more is a digit more.
    let constants = rng.between(30, 36);
    let mut digits = vec![[1usize, 1]; constants];
    let fixed = 3 + (constants - 2) + 5 * constants;
    for _ in fixed..target {
        loop {
            let number = &mut digits[rng.below(constants)][rng.below(2)];
            if *number < 5 {
                *number += 1;
                break;
            }
        }
    }
    let mut text = b"A.=".to_vec();
    text.resize(text.len() + constants - 2, b'+');
    for [top, bottom] in digits {
        let (top, bottom) = (of_digits(rng, top), of_digits(rng, bottom));
        text.extend_from_slice(format!("#{top}/{bottom};").as_bytes());
    }
    text
}

/// A number of so many digits, from 1 to 65,535.
fn of_digits(rng: &mut Rng, digits: usize) -> usize {
    let low = 10usize.pow(digits as u32 - 1);
    rng.between(low, (10 * low - 1).min(65_535))
}

/// Numbers at the limits, and spellings that are no numbers.
const NUMBERS: &[&str] = &[
    "0",
    "00",
    "01",
    "000",
    "1",
    "10",
    "59",
    "60",
    "61",
    "065",
    "65534",
    "65535",
    "65536",
    "99999",
    "100000",
    "065535",
    "123456",
    "1000000",
    "4294967296",
    "18446744073709551617",
    "",
    "-1",
    "+1",
    "1 ",
    "1.0",
    "x",
];

/// A text in which another spelling was put for one number or variable digit.
fn with_another_number(rng: &mut Rng) -> Vec<u8> {
    let letters = rng.between(1, LETTERS);
    let taste = Taste::all(rng, letters);
    let size = rng.between(3, 30);
    let text = sentence(rng, &taste, size).text();
    let starts: Vec<usize> =
        (1..text.len()).filter(|&i| text[i].is_ascii_digit() && !text[i - 1].is_ascii_digit()).collect();
    if starts.is_empty() {
        return text;
    }
    let start = rng.pick(&starts);
    let digits = text[start..].iter().take_while(|byte| byte.is_ascii_digit()).count();
    let mut other = text[..start].to_vec();
    other.extend_from_slice(rng.pick(NUMBERS).as_bytes());
    other.extend_from_slice(&text[start + digits..]);
    other
}

/// A text in which the values of one or two nodes are at a limit of row 7.
fn with_spoiled_node(rng: &mut Rng) -> Vec<u8> {
    let mut loose = any_sentence(rng);
    for _ in 0..rng.between(1, 2) {
        spoil_value(rng, &mut loose.list, false);
    }
    loose.text()
}

/// Puts values at a limit into one node that has values, if there is one; for
/// the writer also values that no text spells.
fn spoil_value(rng: &mut Rng, list: &mut [Node], beyond: bool) {
    let has_values =
        |node: &Node| matches!(node, Node::Label { .. } | Node::Constant { .. } | Node::Until { .. });
    let places: Vec<usize> = (0..list.len()).filter(|&i| has_values(&list[i])).collect();
    if places.is_empty() {
        return;
    }
    let numbers: &[u32] = match beyond {
        true => &[0, 1, 60, 61, 65_535, 65_536, 99_999, 100_000, 165_535, u32::MAX],
        false => &[0, 1, 9, 10, 60, 61, 65_535, 65_536, 99_999],
    };
    match &mut list[rng.pick(&places)] {
        Node::Label { label, variable } if beyond => match rng.chance(1, 2) {
            true => *label = rng.pick(&[15, 16, 17, 26, 255]),
            false => *variable = rng.pick(&[0, 1, 2, 3, 4, 5, 255]),
        },
        Node::Label { variable, .. } => *variable = rng.between(1, 4) as u8,
        Node::Constant { top, bottom } => match rng.below(3) {
            0 => *top = rng.pick(numbers),
            1 => *bottom = rng.pick(numbers),
            _ => (*top, *bottom) = (rng.pick(numbers), rng.pick(numbers)),
        },
        Node::Until { from, to } => match rng.below(3) {
            0 => *from = to.wrapping_add(rng.pick(&[0, 1])),
            1 => *to = rng.pick(numbers),
            _ => (*from, *to) = (rng.pick(numbers), rng.pick(numbers)),
        },
        _ => {}
    }
}

/// A text whose prefix has no letter, or many, or other bytes.
fn with_another_prefix(rng: &mut Rng) -> Vec<u8> {
    let mut text: Vec<u8> = (0..rng.below(7)).map(|_| rng.pick(b"AAAEEE")).collect();
    if rng.chance(1, 4) {
        text.push(rng.pick(b"aeTB1.2 "));
    }
    if rng.chance(7, 8) {
        text.push(b'.');
    }
    text.extend_from_slice(rng.pick(&["T", "a1", "d4", "=#0/1;#0/1;", ""]).as_bytes());
    text
}

/// A text with one label of any letter and any digit in it.
fn with_another_label(rng: &mut Rng) -> Vec<u8> {
    let letter = rng.pick(b"aopq`zAP@");
    let digit = rng.pick(b"0123459:/a");
    let (front, back) =
        rng.pick(&[("A.", ""), ("AE.&T", ""), ("EEE.=PX", "#1/2;"), ("AAAA.&", "b4"), ("AA.!", "")]);
    let mut text = front.as_bytes().to_vec();
    text.extend_from_slice(&[letter, digit]);
    text.extend_from_slice(back.as_bytes());
    text
}

/// A record for the writer: right, or with wrong fields, or with a list that
/// does not nest. The places that are no part of the sentence hold anything.
pub fn record(rng: &mut Rng) -> Sentence {
    let mut loose = any_sentence(rng);
    match rng.below(8) {
        0 | 1 => spoil_value(rng, &mut loose.list, true),
        2 | 3 => spoil_list(rng, &mut loose.list),
        4 => loose.list = long_list(rng),
        _ => {}
    }
    let mut record = record_of(rng, &loose);
    match rng.below(10) {
        0 => record.letters = rng.pick(&[0, 1, 2, 3, 4, 5, 6, 257, usize::MAX]),
        1 => record.count = rng.pick(&[0, record.count.wrapping_sub(1), record.count + 1, 63, 64]),
        2 => record.count = rng.pick(&[64, 65, 66, 128, record.count + 256, usize::MAX]),
        _ => {}
    }
    record
}

/// A loose sentence as a record, as much of it as has room; the places past its
/// end hold anything.
pub fn record_of(rng: &mut Rng, loose: &Loose) -> Sentence {
    let mut nodes = [Node::True; NODES];
    let mut exists = [false; LETTERS];
    if rng.chance(3, 4) {
        nodes = std::array::from_fn(|_| any_node(rng));
        exists = std::array::from_fn(|_| rng.chance(1, 2));
    }
    let held = loose.list.len().min(NODES);
    nodes[..held].copy_from_slice(&loose.list[..held]);
    exists[..loose.prefix.len()].copy_from_slice(&loose.prefix);
    Sentence { letters: loose.prefix.len(), exists, count: loose.list.len(), nodes }
}

/// Any node, its values within the range of their types.
pub fn any_node(rng: &mut Rng) -> Node {
    match rng.below(12) {
        0 => Node::True,
        1 => Node::Label { label: rng.below(20) as u8, variable: rng.below(6) as u8 },
        2 => Node::Not,
        3 => Node::And,
        4 => Node::Compare(relation(rng)),
        5 => Node::Probability,
        6 => Node::Constant { top: rng.below(120_000) as u32, bottom: rng.below(120_000) as u32 },
        7 => Node::Sum,
        8 => Node::Difference,
        9 => Node::Product,
        10 => Node::Next,
        _ => Node::Until { from: rng.below(70) as u32, to: rng.below(70) as u32 },
    }
}

/// Changes, takes out, doubles or swaps nodes of a list.
fn spoil_list(rng: &mut Rng, list: &mut Vec<Node>) {
    let (one, other) = (rng.below(list.len()), rng.below(list.len()));
    match rng.below(5) {
        0 => list[one] = any_node(rng),
        1 => {
            list.remove(one);
        }
        2 => list.insert(one, list[other]),
        3 => list.swap(one, other),
        _ => *list = (0..rng.between(1, 10)).map(|_| any_node(rng)).collect(),
    }
}

/// A list of at most 64 nodes whose text is about 400 bytes long.
fn long_list(rng: &mut Rng) -> Vec<Node> {
    let constants = rng.between(27, 32);
    let mut list = vec![Node::Compare(relation(rng))];
    list.resize(constants - 1, Node::Sum);
    for _ in 0..constants {
        let (top, bottom) = (rng.between(3, 5), rng.between(4, 5));
        let (top, bottom) = (of_digits(rng, top) as u32, of_digits(rng, bottom) as u32);
        list.push(Node::Constant { top, bottom });
    }
    list
}

#[cfg(test)]
mod tests {
    use super::*;
    use crate::second::read_sentence;

    #[test]
    fn sentences_have_the_size_asked_for_and_keep_the_rules() {
        let mut rng = Rng::new(3);
        for size in 1..=64 {
            for _ in 0..40 {
                let letters = rng.between(1, 4);
                let taste = Taste::all(&mut rng, letters);
                let loose = sentence(&mut rng, &taste, size);
                assert_eq!(loose.list.len(), size);
                let text = loose.text();
                let expected = if text.len() > 400 { Some(6) } else { None };
                assert_eq!(read_sentence(&text).err(), expected);
            }
        }
    }

    #[test]
    fn texts_of_a_length_have_it() {
        let mut rng = Rng::new(4);
        let mut reached = [0; 5];
        for _ in 0..400 {
            let text = of_text_length(&mut rng);
            reached[text.len() - 398] += 1;
            assert_eq!(read_sentence(&text) == Err(6), text.len() > 400);
        }
        assert!(reached.iter().all(|&count| count > 0));
    }
}
