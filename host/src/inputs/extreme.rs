//! Pairs of a model and a sentence at the ends of what is answered: as many
//! tuples, as long windows, as great numbers and as deep nesting as there can be.

use super::model::{any_with, file_of, model_with};
use super::naming::named_by;
use super::question::{fitting_sentence, widest_window, Pair};
use super::Rng;
use crate::second::meaning::{answer, Way};
use crate::second::Model;

/// What is extreme about a pair.
#[derive(Clone, Copy, Debug, PartialEq, Eq)]
pub enum Kind {
    /// 1,024 tuples, or nearly so many.
    Tuples,
    /// Over 1,024 tuples: refused by 11.
    TuplesBeyond,
    /// A window that ends between 50 and 60.
    LongWindow,
    /// A number of the size rule at 2^62.
    End,
    /// A number of the size rule just above 2^62: refused by 10.
    EndBeyond,
    /// Expressions that fall below zero.
    BelowZero,
    /// Up to 63 negations.
    Negations,
    /// Up to 31 conjunctions, to the left, to the right or both.
    Conjunctions,
    /// A sum of up to 15 probabilities that leans to the left.
    LeftSum,
    /// A sum of up to 15 probabilities that leans to the right.
    RightSum,
    /// Up to 30 sums, differences and products of constants.
    Constants,
    /// Up to 12 untils, each inside the one before.
    Untils,
    /// Up to 15 nexts, each inside the one before.
    Nexts,
    /// Up to ten untils, compared pairwise.
    Pairwise,
}

/// The most that the numbers of states and letters allow within 1,024 tuples.
const FULL: [(u32, usize); 8] = [(32, 2), (32, 2), (31, 2), (10, 3), (9, 3), (5, 4), (4, 4), (32, 1)];

/// A pair of a kind.
pub fn pair(rng: &mut Rng, kind: Kind) -> Pair {
    match kind {
        Kind::Tuples => full(rng),
        Kind::TuplesBeyond => beyond(rng),
        Kind::LongWindow => long_window(rng),
        Kind::End => end(rng, false),
        Kind::EndBeyond => end(rng, true),
        _ => {
            let asked = Asked::of(rng, kind);
            let body = match kind {
                Kind::BelowZero => asked.below_zero(rng),
                Kind::Negations => asked.negations(rng),
                Kind::Conjunctions => asked.conjunctions(rng),
                Kind::LeftSum | Kind::RightSum => asked.sum(rng, kind == Kind::LeftSum),
                Kind::Constants => asked.constants(rng),
                Kind::Untils => asked.untils(rng),
                Kind::Nexts => asked.nexts(rng),
                _ => asked.pairwise(rng),
            };
            asked.pair(rng, &body)
        }
    }
}

/// A pair of about 1,024 tuples and any sentence of a few steps.
fn full(rng: &mut Rng) -> Pair {
    let (n, letters) = rng.pick(&FULL);
    let d = rng.between(1, 3) as u32;
    let model = any_with(rng, n, 2, d);
    let size = rng.between(3, 20);
    let text = fitting_sentence(rng, &model, letters, size).text();
    if text.contains(&b'P') {
        return Pair { file: file_of(&model), text };
    }
    let asked = Asked { model, letters, window: 2 };
    let (left, right) = (asked.probability(rng), asked.probability(rng));
    let body = format!("{}{left}{right}", relation(rng));
    asked.pair(rng, &body)
}

/// A pair of about 1,024 tuples whose two paths take a step or two, in turns over the numbers of states and letters.
pub fn few_steps(rng: &mut Rng, case: usize) -> Pair {
    let (n, letters) = FULL[case % FULL.len()];
    let d = rng.between(2, 4) as u32;
    let asked = Asked { model: any_with(rng, n, 2, d), letters, window: 2 };
    let (left, right) = (asked.atom(rng), asked.atom(rng));
    let other = format!("{}{}", char::from(rng.pick(b"ab")), letters);
    let body = match rng.below(3) {
        0 => format!("{}PX&{left}{other}PX{right}", relation(rng)),
        1 => format!("{}PU0,1:{left}{other}PX!{right}", relation(rng)),
        _ => format!("{}PU1,2:{left}!{other}PU0,1:{right}{other}", relation(rng)),
    };
    asked.pair(rng, &body)
}

/// A pair of over 1,024 tuples.
fn beyond(rng: &mut Rng) -> Pair {
    let (n, letters) = rng.pick(&[(11, 3), (11, 3), (12, 3), (32, 3), (6, 4), (6, 4), (7, 4), (32, 4)]);
    let d = rng.between(1, 2) as u32;
    let asked = Asked { model: any_with(rng, n, 2, d), letters, window: 2 };
    let body = match rng.below(3) {
        0 => "T".to_string(),
        1 => asked.atom(rng),
        _ => format!("{}{}#1/2;", relation(rng), asked.probability(rng)),
    };
    asked.pair(rng, &body)
}

/// A pair with a window that ends between 50 and 60: D is 1, or 2 where the path names one variable.
fn long_window(rng: &mut Rng) -> Pair {
    let letters = rng.pick(&[1, 1, 1, 2, 2, 3, 4]);
    let most = if rng.chance(1, 30) { 1_024 } else { 100 };
    let n = (1..=32usize).rev().find(|&n| n.pow(letters as u32) <= most).unwrap_or(1);
    let n = rng.between(1, n) as u32;
    let d = rng.between(1, 2) as u32;
    // Runs of so many steps mostly end in an empty row where there is one.
    let model = if rng.chance(1, 4) { any_with(rng, n, 2, d) } else { model_with(rng, n, 2, d) };
    let asked = Asked { model, letters, window: 60 };
    let to = rng.pick(&[60, 60, 59, 50]);
    let from = rng.pick(&[0, 1, to / 2, to - 1, to]);
    let (first, second) = (asked.atom(rng), asked.atom(rng));
    let first = if d == 1 { first } else { second.replace('a', "b") };
    let until = format!("PU{from},{to}:{first}{second}");
    let body = match rng.below(3) {
        0 => format!("{}{until}#1/2;", relation(rng)),
        1 => format!("{}#1/1;{until}", relation(rng)),
        _ => format!("{}{until}#{}/{};", relation(rng), rng.below(2), rng.between(1, 4)),
    };
    asked.pair(rng, &body)
}

/// Bodies with a number at 2^62, or above it with the second of the values: D, how many variables each path names, the body
/// with a gap, and the two values of the gap. `f` and `s` are put for a formula that names nothing and one that names so many.
const ENDS: [(u32, usize, &str, [&str; 2]); 19] = [
    (4, 1, "GPU0,%:fs#0/1;", ["31", "32"]),
    (4, 1, "LPU3,31:fs#0/%;", ["1", "2"]),
    (4, 1, "<#1/%;PU0,31:fs", ["1", "2"]),
    (4, 1, "=PU0,31:fs#%/1;", ["1", "2"]),
    (4, 1, "<-#0/1;PU0,31:fs#%/1;", ["1", "2"]),
    (4, 1, ">+PU0,30:fs#2/%;#0/1;", ["1", "2"]),
    (4, 1, "G-PU0,15:fsPU0,%:sf#1/2;", ["15", "16"]),
    (2, 1, "=*PU0,60:fs#%/1;#1/1;", ["4", "5"]),
    (2, 1, "L*#3/4;PU5,60:fs#%/1;", ["1", "2"]),
    (2, 1, "G+PU0,30:fsPU0,%:sf#1/1;", ["31", "32"]),
    (2, 1, ">*PU0,30:fsPU0,%:sf#1/1;", ["32", "33"]),
    (2, 1, "=PXGPU0,60:fs#%/4;#1/1;", ["4", "5"]),
    (2, 2, "GPU0,%:fs#1/1;", ["31", "32"]),
    (2, 3, "=PU0,20:fs#0/%;", ["4", "5"]),
    (2, 4, "<PU0,%:fs#3/4;", ["15", "16"]),
    (16, 1, "=PU0,15:fs#%/4;", ["4", "5"]),
    (32_768, 4, "=PXs#%/4;", ["4", "5"]),
    (46_340, 4, "LPXs#%/1;", ["0", "2"]),
    (65_535, 3, "GPX!s#1/%;", ["16384", "16385"]),
];

/// A pair with a number at 2^62 (or as near to it as D allows), or just above it.
fn end(rng: &mut Rng, above: bool) -> Pair {
    loop {
        let (d, v, body, gap) = rng.pick(&ENDS);
        let letters = rng.between(v, 4);
        let n = rng.between(1, if letters > 2 { 3 } else { 5 }) as u32;
        let asked = Asked { model: any_with(rng, n, 2, d), letters, window: 0 };
        let (first, second) = (rng.pick(&["T", "T", "!T"]), named_by(rng, letters, v));
        let filled = body.replace('%', gap[usize::from(above)]);
        let body = filled.replace('f', first).replace('s', &second);
        let pair = asked.pair(rng, &body);
        let refused = answer(&pair.file, &pair.text, Way::Table).err();
        if refused == above.then_some(10) {
            return pair;
        }
    }
}

/// The deepest sentences under one letter, one for each kind of nesting; all but the first have a path. They are answered
/// on a model whose D is 2.
pub fn deepest() -> Vec<Vec<u8>> {
    let terms = "PXa1".repeat(15);
    let list = [
        format!("A.{}T", "!".repeat(63)),
        format!("A.{}GPXa1#1/2;", "!".repeat(59)),
        format!("A.{}GPXa1#1/2;{}", "&".repeat(29), "T".repeat(29)),
        format!("A.{}GPXa1#1/2;", "&T".repeat(29)),
        format!("A.>{}{terms}#1/1;", "+".repeat(14)),
        format!("A.>{}PXa1#1/1;", "+PXa1".repeat(14)),
        format!("A.>{}PXa1{}#1/1;", "+".repeat(29), "#1/1;".repeat(29)),
        format!("A.>{}PXa1#1/1;", "+#1/1;".repeat(29)),
        format!("A.{}a1{}", "GPU0,1:T".repeat(12), "#1/2;".repeat(12)),
        format!("A.{}a1{}", "GPU0,1:".repeat(12), "T#1/2;".repeat(12)),
        format!("A.{}a1{}", "GPX".repeat(15), "#1/2;".repeat(15)),
        format!("A.{}a1", "L#1/2;PX".repeat(15)),
        format!("A.{}a1{}", "G+#0/1;PX".repeat(10), "#1/2;".repeat(10)),
    ];
    list.map(String::into_bytes).into()
}

/// One of the five relations.
fn relation(rng: &mut Rng) -> char {
    char::from(rng.pick(b"<L=G>"))
}

/// A model, the number of letters, and how long the windows are to be.
struct Asked {
    model: Model,
    letters: usize,
    window: usize,
}

impl Asked {
    /// A model for a kind: now and then of 1,024 tuples, else of few. Its D is
    /// one with which the kind's numbers stay mostly within the size rule.
    fn of(rng: &mut Rng, kind: Kind) -> Asked {
        let mut letters = rng.pick(&[1, 1, 2, 2, 3, 4]);
        let mut n = rng.between(1, [0, 12, 6, 4, 3][letters]) as u32;
        if rng.chance(1, 20) {
            (n, letters) = rng.pick(&FULL);
        }
        let d = match (kind, letters) {
            // Each of the probabilities names one variable at most.
            (Kind::LeftSum | Kind::RightSum, _) => rng.pick(&[1, 2, 3, 4, 5, 8, 13]),
            (_, 1) => rng.pick(&[1, 2, 3, 4, 10, 100]),
            _ => rng.pick(&[1, 2, 2, 3, 4, 7]),
        };
        let model = any_with(rng, n, 2, d);
        // Two probabilities of one or two variables are multiplied in a comparison, and products of them.
        let window = widest_window(d, letters.min(2) * 4).clamp(1, 4);
        Asked { model, letters, window }
    }

    /// The pair of this model and a body under any prefix.
    fn pair(&self, rng: &mut Rng, body: &str) -> Pair {
        let prefix: String = (0..self.letters).map(|_| char::from(rng.pick(b"AE"))).collect();
        Pair { file: file_of(&self.model), text: format!("{prefix}.{body}").into_bytes() }
    }

    /// A label of some variable, or now and then `T`.
    fn atom(&self, rng: &mut Rng) -> String {
        match rng.below(8) {
            0 => "T".to_string(),
            _ => format!("{}{}", char::from(rng.pick(b"ab")), rng.between(1, self.letters)),
        }
    }

    /// A probability of a few steps, of three or four nodes.
    fn probability(&self, rng: &mut Rng) -> String {
        if rng.chance(1, 3) {
            return format!("PX{}", self.atom(rng));
        }
        let to = rng.between(1, self.window);
        let from = if rng.chance(1, 2) { 0 } else { rng.between(0, to) };
        format!("PU{from},{to}:{}{}", self.atom(rng), self.atom(rng))
    }

    /// A comparison in which differences fall below zero at most tuples.
    fn below_zero(&self, rng: &mut Rng) -> String {
        let (p, q, r) = (self.probability(rng), self.probability(rng), format!("PX{}", self.atom(rng)));
        let relation = relation(rng);
        let (top, bottom) = (rng.below(4), rng.between(1, 4));
        match rng.below(9) {
            0 => format!("{relation}-#{top}/4;{p}#0/1;"),
            1 => format!("{relation}-#0/1;{p}-{q}#1/1;"),
            2 => format!("{relation}*-{p}#1/1;-{q}#1/1;#{top}/{bottom};"),
            3 => format!("{relation}-{r}+{p}#1/2;#0/1;"),
            4 => format!("{relation}*-#0/1;{p}#3/2;-#0/1;#1/{bottom};"),
            5 => format!("{relation}---#1/4;{p}{q}{r}-#0/3;#{top}/2;"),
            6 => format!("{relation}-#0/1;-{p}#{top}/1;-#0/1;-#0/1;{q}"),
            7 => format!("=PX<-{p}#1/1;-#0/1;#1/{bottom};#{top}/2;"),
            _ => format!("{relation}+-#1/3;{p}-{q}#2/3;*-#0/1;#1/2;{r}"),
        }
    }

    /// Up to 63 negations of one formula.
    fn negations(&self, rng: &mut Rng) -> String {
        let count = rng.pick(&[63, 62, 61, 40]);
        match rng.below(3) {
            0 => format!("{}{}", "!".repeat(count), self.atom(rng)),
            1 => format!("{}{}{}#1/2;", "!".repeat(count - 5), relation(rng), self.probability(rng)),
            _ => format!("GPU0,1:{}{}{}#1/2;", self.atom(rng), "!".repeat(count - 6), self.atom(rng)),
        }
    }

    /// Up to 31 conjunctions, to the left, to the right or by turns; a comparison at the deepest place.
    fn conjunctions(&self, rng: &mut Rng) -> String {
        let count = rng.pick(&[29, 28, 20]);
        let mut body = format!("{}PX{}#1/2;", relation(rng), self.atom(rng));
        let turn = rng.below(3);
        for place in 0..count {
            // Most others are true, so that the deepest place counts.
            let other = if rng.chance(1, 20) { self.atom(rng) } else { "T".to_string() };
            let left = turn == 0 || (turn == 2 && place % 2 == 0);
            body = if left { format!("&{body}{other}") } else { format!("&{other}{body}") };
        }
        body
    }

    /// A sum of up to 15 probabilities, compared with a number or with another probability.
    fn sum(&self, rng: &mut Rng, left: bool) -> String {
        let terms = rng.pick(&[15, 15, 14, 10]);
        let mut body = String::new();
        for place in 0..terms {
            let term = format!("PX{}", self.atom(rng));
            let operator = if rng.chance(1, 12) { '-' } else { '+' };
            body = match (place, left) {
                (0, _) => term,
                (_, true) => format!("{operator}{body}{term}"),
                (_, false) => format!("{operator}{term}{body}"),
            };
        }
        match rng.below(4) {
            0 => format!("{}{body}PX{}", relation(rng), self.atom(rng)),
            1 => format!("{}#{}/1;{body}", relation(rng), rng.below(terms)),
            _ => format!("{}{body}#{}/1;", relation(rng), rng.below(terms)),
        }
    }

    /// Up to 30 sums, differences and products of constants that lean one way.
    fn constants(&self, rng: &mut Rng) -> String {
        let left = rng.chance(1, 2);
        let mut body = format!("PX{}", self.atom(rng));
        for _ in 0..rng.pick(&[28, 27, 15]) {
            let bottom = rng.pick(&[1, 1, 1, 1, 2]);
            let (operator, constant) = match rng.below(8) {
                0 => ('*', format!("#1/{bottom};")),
                1..=3 => ('-', format!("#{}/{bottom};", rng.below(3))),
                _ => ('+', format!("#{}/{bottom};", rng.below(3))),
            };
            body = match left {
                true => format!("{operator}{body}{constant}"),
                false => format!("{operator}{constant}{body}"),
            };
        }
        format!("{}{body}#{}/1;", relation(rng), rng.below(9))
    }

    /// Up to 12 untils, each in the first or in the second formula of the one before.
    fn untils(&self, rng: &mut Rng) -> String {
        let mut body = self.atom(rng);
        for _ in 0..rng.pick(&[12, 12, 11, 6]) {
            let to = rng.between(1, self.window.min(2));
            let from = rng.below(2);
            let (relation, atom) = (rng.pick(b"GG>L"), self.atom(rng));
            let both = if rng.chance(1, 2) { body + &atom } else { atom + &body };
            let bound = rng.pick(&["#1/2;", "#0/1;", "#1/3;", "#1/1;"]);
            body = format!("{}PU{from},{to}:{both}{bound}", char::from(relation));
        }
        body
    }

    /// Up to 15 nexts, each inside the one before, on the left or on the right of its comparison.
    fn nexts(&self, rng: &mut Rng) -> String {
        let mut body = self.atom(rng);
        for _ in 0..rng.pick(&[15, 15, 14, 8]) {
            let bound = rng.pick(&["#1/2;", "#0/1;", "#1/3;", "#1/1;"]);
            body = match rng.chance(1, 2) {
                true => format!("{}PX{body}{bound}", char::from(rng.pick(b"GG>L"))),
                false => format!("{}{bound}PX{body}", char::from(rng.pick(b"LL<G"))),
            };
        }
        body
    }

    /// Up to five comparisons of two untils each, joined by `&`; each may be negated.
    fn pairwise(&self, rng: &mut Rng) -> String {
        let mut compared = || {
            let (left, right) = (self.probability(rng), self.probability(rng));
            let not = if rng.chance(1, 4) { "!" } else { "" };
            format!("{not}{}{left}{right}", char::from(rng.pick(b"LLGG=<>")))
        };
        let list: Vec<String> = (0..5).map(|_| compared()).collect();
        let not = if rng.chance(1, 2) { "!" } else { "" };
        match rng.chance(1, 2) {
            true => format!("{not}&&&&{}", list.concat()),
            false => format!("{not}&{}&{}&{}&{}{}", list[0], list[1], list[2], list[3], list[4]),
        }
    }
}
