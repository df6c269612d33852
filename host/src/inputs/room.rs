//! Calls for work areas of just the length that they need (document 02, T-07): questions of every size within 1,024 tuples,
//! sentences of 64 nodes that hold as many values at once as they can, and calls that a row other than 1 refuses.

use super::extreme::deepest;
use super::model::{any_with, file_of, model_with, spelled, throw};
use super::question::{fitting_sentence, Pair};
use super::sentence::{sentence, Lean, Taste};
use super::Rng;
use crate::second::meaning::{too_large, ENOUGH, PER_TUPLE, TUPLES};
use crate::second::model::{mend, STATES};
use crate::second::sentence::{read_sentence, LETTERS, NODES};
use crate::second::Model;

/// Every number of states and letters within 1,024 tuples.
pub fn sizes() -> Vec<(u32, usize)> {
    let all = (1..=LETTERS).flat_map(|letters| (1..=STATES as u32).map(move |n| (n, letters)));
    all.filter(|&(n, letters)| (n as usize).pow(letters as u32) <= TUPLES).collect()
}

/// Some of these, the ends among them.
pub const SOME_SIZES: [(u32, usize); 12] =
    [(1, 1), (1, 4), (2, 1), (5, 1), (32, 1), (3, 2), (2, 3), (3, 4), (10, 3), (5, 4), (31, 2), (32, 2)];

/// Some numbers of states and letters beyond 1,024 tuples.
pub const BEYOND: [(u32, usize); 4] = [(11, 3), (12, 3), (6, 4), (7, 4)];

/// The letters of a prefix.
fn prefix(letters: usize) -> &'static str {
    &"AEAE"[..letters]
}

/// Two models with two labels whose rows, but for empty ones, are thrown. The first is of version 0.
pub fn spread(rng: &mut Rng, n: u32, d: u32) -> [Model; 2] {
    [model_with(rng, n, 2, d), any_with(rng, n, 2, d)].map(|mut model| {
        let written: Vec<usize> = (0..n as usize).filter(|&state| !model.row_is_empty(state)).collect();
        written.into_iter().for_each(|state| throw(rng, &mut model, state));
        model
    })
}

/// Questions of one size that are answered: without a path, with paths that name one variable, two and all, with a path
/// inside another, and any.
pub fn questions(rng: &mut Rng, n: u32, letters: usize) -> Vec<Pair> {
    let d = rng.between(1, 4) as u32;
    let mut list = Vec::new();
    for model in spread(rng, n, d) {
        let any = any_text(rng, &model, letters);
        let texts = bodies(rng, letters).map(|body| format!("{}.{body}", prefix(letters)).into_bytes());
        let file = file_of(&model);
        list.extend(texts.into_iter().chain([any]).map(|text| Pair { file: file.clone(), text }));
    }
    list
}

/// The bodies of these questions, but for any.
fn bodies(rng: &mut Rng, letters: usize) -> [String; 6] {
    let (x, y) = (rng.between(1, letters), rng.between(1, letters));
    let each: String = (1..=letters).map(|variable| format!("a{variable}")).collect();
    let all = "&".repeat(letters - 1) + &each;
    [
        "T".to_string(),
        format!("!&a{x}b{y}"),
        format!("GPXa{x}#1/2;"),
        format!("LPU0,2:a{x}b{y}PX{all}"),
        format!("=PU1,1:T{all}PU1,2:!b{x}a{y}"),
        format!("<PU0,1:GPXa{x}#1/2;b{y}+PXa{y}*PXb{x}#1/2;"),
    ]
}

/// Any sentence that the size rule allows.
fn any_text(rng: &mut Rng, model: &Model, letters: usize) -> Vec<u8> {
    loop {
        let size = rng.between(3, 20);
        let text = fitting_sentence(rng, model, letters, size).text();
        if allowed(model, &text) {
            return text;
        }
    }
}

/// Whether a text can be read and the size rule allows it on a model.
fn allowed(model: &Model, text: &[u8]) -> bool {
    read_sentence(text).is_ok_and(|sentence| !too_large(&sentence, model.d))
}

/// Operands under operators, those of each level another, as even as can be.
fn balanced(operators: &[&str], operands: &[&str]) -> String {
    if let [one] = operands {
        return one.to_string();
    }
    let (left, right) = operands.split_at(operands.len() / 2);
    let (first, below) = operators.split_first().expect("an operator");
    let below = [below, &[*first]].concat();
    format!("{first}{}{}", balanced(&below, left), balanced(&below, right))
}

/// Comparisons of an until with a constant whose two formulas are such comparisons, so many levels of them.
fn untils(levels: usize) -> String {
    match levels {
        0 => "a1".to_string(),
        _ => format!("GPU0,1:{0}{0}#1/2;", untils(levels - 1)),
    }
}

/// Comparisons of two untils whose four formulas are such comparisons, so many levels of them.
fn pairs_of_untils(levels: usize) -> String {
    match levels {
        0 => "a1".to_string(),
        _ => format!("LPU1,1:{0}{0}PU0,1:{0}{0}", pairs_of_untils(levels - 1)),
    }
}

/// Bodies of at most 64 nodes with even operands: conjunctions, sums and products of probabilities and of constants, untils
/// inside untils, and sums inside untils inside sums.
fn even_bodies() -> Vec<String> {
    let (sum, product) = (balanced(&["+"], &["PXa1"; 8]), balanced(&["*", "+"], &["PXa1"; 8]));
    let shorter = balanced(&["+", "*"], &["PXa1"; 7]);
    let halves = balanced(&["+", "*", "-"], &["#1/2;"; 16]);
    let fewer = balanced(&["-", "+"], &[&["#1/2;"; 14][..], &["PXa1"]].concat());
    let of_untils = balanced(&["+"], &["PU0,1:a1a1"; 6]);
    let (compared, inside) = ("GPXa1#1/2;", "G+PXa1PXa1#1/1;");
    let until = format!("PU0,1:{inside}{inside}");
    vec![
        balanced(&["&"], &["a1"; 32]),
        balanced(&["&"], &[compared; 10]),
        format!("L{sum}{sum}"),
        format!("G{product}{sum}"),
        format!("<{sum}{shorter}"),
        format!(">-{product}{shorter}#0/1;"),
        format!("<{halves}{halves}"),
        format!("G{halves}{fewer}"),
        format!("={}PXa1", balanced(&["*", "+"], &["PXa1", "#1/2;"].repeat(10))),
        format!("L{of_untils}{of_untils}"),
        balanced(&["&"], &[&untils(3), &untils(2), &untils(1)]),
        balanced(&["&"], &[&pairs_of_untils(2), &pairs_of_untils(1), &pairs_of_untils(1)]),
        format!("&>+{until}{until}#1/1;&{inside}{compared}"),
    ]
}

/// How many nodes a body under one letter has.
fn nodes(body: &str) -> usize {
    read_sentence(format!("A.{body}").as_bytes()).expect("a sentence").count
}

/// A sentence of 64 nodes under so many letters. If there are nodes left, the body stands in a next, whose numerators tell its
/// truth; then come negations. The labels are both, and of all variables in turn.
fn filled(body: String, letters: usize) -> Vec<u8> {
    let body = if nodes(&body) + 4 <= NODES { format!("GPX{body}#1/2;") } else { body };
    let mut text = format!("{}.{}", prefix(letters), "!".repeat(NODES - nodes(&body)));
    for (turn, part) in body.split("a1").enumerate() {
        if turn > 0 {
            let label = ['a', 'b'][(turn - 1) / letters % 2];
            text += &format!("{label}{}", (turn - 1) % letters + 1);
        }
        text += part;
    }
    text.into_bytes()
}

/// Sentences of 64 nodes under so many letters: the deepest, and those with even operands. They are answered on a model with
/// two labels whose D is 3.
pub fn full_texts(letters: usize) -> Vec<Vec<u8>> {
    let deep = deepest().into_iter().map(|text| String::from_utf8(text).expect("a text")[2..].to_string());
    deep.chain(even_bodies()).map(|body| filled(body, letters)).collect()
}

/// Any sentence of 64 nodes with even operands that the size rule allows.
pub fn even_text(rng: &mut Rng, model: &Model, letters: usize) -> Vec<u8> {
    let labels = model.a as usize;
    let taste = Taste { variables: letters, labels, window: 1, top: 2, bottom: 2, lean: Lean::Even };
    loop {
        let text = sentence(rng, &taste, NODES).text();
        if text.contains(&b'P') && allowed(model, &text) {
            return text;
        }
    }
}

/// A call of numerator that a row other than 1 refuses. Verdict is refused likewise, if the row is not 15.
pub struct Refused {
    /// The row's number.
    pub number: u8,
    /// The model and the sentence.
    pub pair: Pair,
    /// The tuple.
    pub tuple: Vec<u8>,
    /// The number of the path formula.
    pub path: usize,
    /// Lengths of work areas on both sides of what the question would need if the row did not apply.
    pub rooms: [usize; 6],
}

/// Calls of one size that each other row refuses; beyond 1,024 tuples row 11 takes the place of 15.
pub fn refused(rng: &mut Rng, n: u32, letters: usize) -> Vec<Refused> {
    let model = any_with(rng, n, 2, 4);
    let tuples = (n as usize).pow(letters as u32);
    let (file, room) = (file_of(&model), PER_TUPLE * tuples);
    let rooms = [0, 1, room - 1, room, room + 1, room.max(ENOUGH) + 1];
    let good = format!("{}.GPU0,1:a1b1#1/2;", prefix(letters)).into_bytes();
    let (zeros, last) = (vec![0; letters], if tuples > TUPLES { 11 } else { 15 });
    let mut list = Vec::new();
    let mut put = |number: u8, file: &[u8], text: &[u8], tuple: &[u8], path: usize| {
        let pair = Pair { file: file.to_vec(), text: text.to_vec() };
        list.push(Refused { number, pair, tuple: tuple.to_vec(), path, rooms });
    };
    for (number, file) in wrong_files(&model) {
        put(number, &file, &good, &zeros, 0);
        put(number, &file, b"", &[], 1);
    }
    for (number, text) in wrong_texts(letters) {
        put(number, &file, &text, &zeros, 0);
        put(number, &file, &text, &[n as u8], 9);
    }
    put(last, &file, &good, &zeros[1..], 0);
    put(last, &file, &good, &[0; LETTERS + 1], 0);
    put(last, &file, &good, &vec![n as u8; letters], 0);
    put(last, &file, &good, &zeros, 1);
    list
}

/// The file of a model, spoiled by each row from 2 to 5.
fn wrong_files(model: &Model) -> Vec<(u8, Vec<u8>)> {
    let file = file_of(model);
    let changed = |place: usize, byte: u8, mended: bool| {
        let mut file = file.clone();
        file[place] = byte;
        if mended {
            mend(&mut file);
        }
        file
    };
    let mut other = model.clone();
    other.weights[0][0] ^= 1;
    vec![
        (2, Vec::new()),
        (2, file[..file.len() - 1].to_vec()),
        (2, [&file[..], &[0; 3_072]].concat()),
        (3, changed(510, !file[510], false)),
        (3, changed(file.len() - 1, !file[file.len() - 1], false)),
        (4, changed(1, 0, true)),
        (4, changed(3, 2, true)),
        (4, changed(509, 1, true)),
        (5, spelled(&other)),
    ]
}

/// Texts under so many letters that each row from 6 to 10 refuses on a model with two labels whose D is 4.
fn wrong_texts(letters: usize) -> Vec<(u8, Vec<u8>)> {
    let text = |body: &str| format!("{}.{body}", prefix(letters)).into_bytes();
    vec![
        (6, Vec::new()),
        (6, text("")),
        (6, text("TT")),
        (6, text(&("!".repeat(400) + "T"))),
        (7, text("GPU2,1:a1a1#1/2;")),
        (7, text("GPU0,61:TT#1/2;")),
        (7, text("=#1/0;#1/2;")),
        (8, text(&("!".repeat(NODES) + "T"))),
        (9, text("GPXc1#1/2;")),
        (10, text("GPU0,32:Ta1#0/1;")),
    ]
}

#[cfg(test)]
mod tests {
    use super::*;
    use crate::second::Node;

    #[test]
    fn the_sizes_are_all_within_1024_tuples() {
        let sizes = sizes();
        let of = |letters: usize| sizes.iter().filter(|size| size.1 == letters).count();
        assert_eq!([1, 2, 3, 4].map(of), [32, 32, 10, 5]);
        assert!(
            SOME_SIZES.iter().all(|size| sizes.contains(size))
                && BEYOND.iter().all(|size| !sizes.contains(size))
        );
    }

    #[test]
    fn full_texts_have_64_nodes_and_name_every_variable() {
        let model = any_with(&mut Rng::new(1), 2, 2, 3);
        for letters in 1..=LETTERS {
            for text in full_texts(letters) {
                let shown = text.escape_ascii();
                assert!(allowed(&model, &text), "{shown}");
                let sentence = read_sentence(&text).unwrap();
                assert_eq!((sentence.count, sentence.letters), (NODES, letters), "{shown}");
                let named = |v: usize| sentence.nodes.iter().any(|node| is_of(node, v));
                let labels = text.iter().filter(|byte| byte.is_ascii_lowercase()).count();
                assert!((1..=letters.min(labels)).all(named), "{shown}");
            }
        }
    }

    /// Whether a node is a label of a variable.
    fn is_of(node: &Node, v: usize) -> bool {
        matches!(node, Node::Label { variable, .. } if usize::from(*variable) == v)
    }
}
