//! Paths that name some of the variables (document 02, T-02): each is asked beside the meaning in which all n variables
//! step, and beside itself under as many letters as it names variables.

use super::meaning::{ask_all, members, shown, verdict_case, Found};
use super::ways::few_runs;
use super::{agree, Questions, Tally};
use crate::inputs::model::{any_with, file_of};
use crate::inputs::naming::{self, end_of, limits, namings, Kind, Naming};
use crate::inputs::question::Pair;
use crate::inputs::Rng;
use crate::second::meaning::{answer, base_answer, Answer, Fractions, Way, ENOUGH};
use crate::second::model::examples::m1;
use crate::second::sentence::spelled;
use crate::second::{self, read_model, read_sentence, Model, Node, Sentence};

/// What the paths of answered sentences named.
#[derive(Clone, Debug, Default, PartialEq, Eq)]
pub struct Named {
    /// Paths by the number of letters and by v.
    pub paths: [[u64; 5]; 5],
    /// Paths inside a path that names more variables than they do.
    pub fewer: u64,
    /// Paths that name some variable only in a path inside them.
    pub through: u64,
    /// Paths that name a variable more often than once.
    pub again: u64,
    /// Paths that name nothing: nexts and untils, first those in no other path, then those inside one.
    pub nothing: [[u64; 2]; 2],
    /// Sentences that were also asked with all n variables stepping.
    pub beside_base: u64,
    /// Sentences that are refused by 10 with all n variables stepping.
    pub base_refused: u64,
    /// Paths that were also asked by themselves, under as many letters as they name variables.
    pub alone: u64,
    /// Sentences of which every run was listed.
    pub listed: u64,
}

impl Named {
    /// Counts the paths of a sentence that is answered.
    pub(super) fn count(&mut self, sentence: &Sentence) {
        let paths = namings(sentence);
        for path in &paths {
            let outer = path.outer.map(|number| &paths[number]);
            self.paths[sentence.letters][path.v()] += 1;
            self.fewer += u64::from(outer.is_some_and(|outer| path.v() < outer.v()));
            self.through += u64::from(path.own != path.all);
            self.again += u64::from(path.occurrences > path.v());
            if path.v() == 0 {
                self.nothing[usize::from(outer.is_some())][usize::from(!path.next)] += 1;
            }
        }
    }

    /// Adds the counts of another.
    pub(super) fn add(&mut self, other: &Named) {
        for (sums, counts) in self.paths.iter_mut().zip(other.paths) {
            sums.iter_mut().zip(counts).for_each(|(sum, count)| *sum += count);
        }
        for (sums, counts) in self.nothing.iter_mut().zip(other.nothing) {
            sums.iter_mut().zip(counts).for_each(|(sum, count)| *sum += count);
        }
        self.fewer += other.fewer;
        self.through += other.through;
        self.again += other.again;
        self.beside_base += other.beside_base;
        self.base_refused += other.base_refused;
        self.alone += other.alone;
        self.listed += other.listed;
    }

    /// Stops unless there were at least so many paths of each v up to n, for each n from 2 on.
    pub fn require_each(&self, least: u64) {
        for letters in 2..=4 {
            assert!(self.paths[letters][..=letters].iter().all(|&count| count >= least), "{self:?}");
        }
    }
}

/// About how many products the calls that ask a pair at every tuple may take together.
const PRODUCTS: usize = 100_000;

/// Compares `cases` pairs of a kind: verdicts, and of those that are answered every numerator or a sample.
pub fn compare_naming<L: Questions>(lib: &L, kind: Kind, cases: usize, seed: u64) -> Tally {
    let mut rng = Rng::new(seed);
    let mut both = [Tally::new("naming"), Tally::new("numerators of naming")];
    for _ in 0..cases {
        let pair = naming::pair(&mut rng, kind);
        asked(lib, &mut rng, &mut both, &pair);
    }
    joined(both)
}

/// One tally of verdicts and numerators.
fn joined([mut tally, numerators]: [Tally; 2]) -> Tally {
    tally.reach.add(&numerators.reach);
    tally.numerators = numerators.answered;
    tally
}

/// One pair: its verdict with everything that is lent, the meaning beside others, and its numerators.
fn asked<L: Questions>(lib: &L, rng: &mut Rng, both: &mut [Tally; 2], pair: &Pair) -> Option<Answer> {
    let room = pair.enough_room(rng);
    verdict_case(lib, rng, &mut both[0], pair, room);
    let found = answer(&pair.file, &pair.text, Way::Fitting).ok()?;
    let beside = Beside::of(pair, &found);
    let named = &mut both[0].reach.named;
    beside.words();
    beside.base(named);
    beside.alone(named);
    beside.runs(named);
    ask_all(lib, rng, &mut both[1], &Found { pair, found: &found }, PRODUCTS);
    Some(found)
}

/// A pair that is answered, to be held beside other meanings.
struct Beside<'a> {
    pair: &'a Pair,
    found: &'a Answer,
    model: Model,
    sentence: Sentence,
    paths: Vec<Naming>,
}

impl Beside<'_> {
    /// A pair with what the second program answers.
    fn of<'a>(pair: &'a Pair, found: &'a Answer) -> Beside<'a> {
        let model = read_model(&pair.file).expect("a pair that is answered");
        let sentence = read_sentence(&pair.text).expect("a pair that is answered");
        let paths = namings(&sentence);
        Beside { pair, found, model, sentence, paths }
    }

    /// D to a power.
    fn power(&self, power: usize) -> u64 {
        u64::from(self.model.d).pow(power as u32)
    }

    /// The request's words: the denominator is D^(v × steps); with v = 0 the numerator is 0 or 1, and the same everywhere.
    fn words(&self) {
        for (path, fractions) in self.paths.iter().zip(&self.found.paths) {
            let expected = self.power(path.v() * path.steps);
            agree("the denominator", &expected, &fractions.bottom, || shown(self.pair));
            if path.v() == 0 {
                let first = fractions.tops[0].min(1);
                let everywhere = vec![first; fractions.tops.len()];
                agree("a numerator of no variable", &everywhere, &fractions.tops, || shown(self.pair));
            }
        }
    }

    /// All n variables stepping: the same verdict, numerators and denominators D^((n − v) × steps) times as large; or 10.
    fn base(&self, named: &mut Named) {
        let base = match base_answer(&self.pair.file, &self.pair.text, Way::Fitting) {
            Ok(base) => base,
            Err(number) => {
                agree("the base's refusal", &10, &number, || shown(self.pair));
                named.base_refused += 1;
                return;
            }
        };
        agree("the base's verdict", &base.holds, &self.found.holds, || shown(self.pair));
        for (path, (old, new)) in self.paths.iter().zip(base.paths.iter().zip(&self.found.paths)) {
            let times = self.power((self.sentence.letters - path.v()) * path.steps);
            let larger: Vec<u64> = new.tops.iter().map(|top| top * times).collect();
            agree("the base's denominator", &old.bottom, &(new.bottom * times), || shown(self.pair));
            agree("the base's numerators", &old.tops, &larger, || shown(self.pair));
        }
        named.beside_base += 1;
    }

    /// Each path by itself: its variables are numbered from 1, under as many letters, and all of these step. At each tuple
    /// its fraction is that at the states of the named variables.
    fn alone(&self, named: &mut Named) {
        let list = &self.sentence.nodes[..self.sentence.count];
        for (number, (place, path)) in self.sentence.path_places().zip(&self.paths).enumerate() {
            let variables: Vec<usize> = (0..4).filter(|&variable| path.all[variable]).collect();
            let text = by_itself(&list[place..place + end_of(&list[place..])], &variables);
            // A path inside may have a larger denominator than it has here, and be refused.
            let Ok(alone) = base_answer(&self.pair.file, &text, Way::Table) else { continue };
            let fractions = &self.found.paths[number];
            for (at, &top) in fractions.tops.iter().enumerate() {
                let tuple = members(self.model.n as usize, self.sentence.letters, at);
                let states = variables.iter().map(|&variable| usize::from(tuple[variable]));
                let there = states.fold(0, |number, state| number * self.model.n as usize + state);
                let expected = (alone.paths[0].tops[there], alone.paths[0].bottom);
                agree("the path by itself", &expected, &(top, fractions.bottom), || shown(self.pair));
            }
            named.alone += 1;
        }
    }

    /// All runs listed, where they are few.
    fn runs(&self, named: &mut Named) {
        if few_runs(&self.model, &self.pair.text) {
            let listed = answer(&self.pair.file, &self.pair.text, Way::Runs);
            agree("the runs listed", &listed.as_ref(), &Ok(self.found), || shown(self.pair));
            named.listed += 1;
        }
    }
}

/// The text of one path under as many letters as it has variables, these numbered from 1. With none it has no letter and is no
/// sentence.
fn by_itself(path: &[Node], variables: &[usize]) -> Vec<u8> {
    let mut list = vec![Node::Compare(second::Relation::Equal), Node::Probability];
    list.extend(path.iter().map(|&node| match node {
        Node::Label { label, variable } => {
            let place = variables.iter().position(|&other| other + 1 == usize::from(variable));
            Node::Label { label, variable: place.expect("a variable of the path") as u8 + 1 }
        }
        other => other,
    }));
    list.push(Node::Constant { top: 0, bottom: 1 });
    spelled(&vec![false; variables.len()], &list)
}

/// D on which both sides of row 10 are asked.
const DENOMINATORS: [u32; 12] = [1, 2, 3, 4, 5, 7, 10, 16, 255, 256, 46_340, 65_535];

/// Row 10 on both sides: for every D of a list, every number of letters and every set of variables, windows up to the last that
/// the named variables allow, and the first that they do not.
pub fn compare_row_10<L: Questions>(lib: &L, seed: u64) -> Tally {
    let mut rng = Rng::new(seed);
    let mut both = [Tally::new("row 10"), Tally::new("numerators of row 10")];
    for d in DENOMINATORS {
        for letters in 1..=4 {
            for set in 0..1 << letters {
                let variables: Vec<u8> =
                    (1..=letters).filter(|variable| set >> (variable - 1) & 1 == 1).collect();
                let model = any_with(&mut rng, 2, 1, d);
                for limit in limits(d, &variables) {
                    let prefix = &"AEAE"[..usize::from(letters)];
                    let text = format!("{prefix}.{}", limit.body).into_bytes();
                    let pair = Pair { file: file_of(&model), text };
                    let refused = second::verdict(&pair.file, &pair.text, &mut [0; ENOUGH]).err();
                    agree("row 10 of second", &limit.refused(d).then_some(10), &refused, || shown(&pair));
                    asked(lib, &mut rng, &mut both, &pair);
                }
            }
        }
    }
    both[0].require(&[10]);
    joined(both)
}

/// Formulas that name no variable, and whether they hold.
const CLOSED: [(&str, bool); 8] = [
    ("T", true),
    ("!T", false),
    ("&TT", true),
    ("=#1/2;#2/4;", true),
    ("<#1/2;#2/4;", false),
    ("GPXT#1/1;", true),
    (">PX!T#0/1;", false),
    ("=PU0,60:TTPU60,60:TT", true),
];

/// Windows for untils that name no variable.
const WINDOWS: [(usize, usize); 9] =
    [(0, 0), (0, 1), (1, 1), (0, 2), (2, 2), (0, 60), (1, 60), (30, 60), (60, 60)];

/// Every next and until over those formulas and windows, and its numerator over 1.
fn closed_paths() -> Vec<(String, usize)> {
    let mut list: Vec<(String, usize)> =
        CLOSED.iter().map(|(formula, holds)| (format!("PX{formula}"), usize::from(*holds))).collect();
    for (from, to) in WINDOWS {
        for (first, stays) in CLOSED {
            for (second, meets) in CLOSED {
                // All positions are alike, so the first of the window decides.
                let taken = meets && (from == 0 || stays);
                list.push((format!("PU{from},{to}:{first}{second}"), usize::from(taken)));
            }
        }
    }
    list
}

/// Bodies that have such a path at the gap `%` inside another path, `e` being its numerator, and whether they hold everywhere.
const INSIDE: [(&str, bool); 7] = [
    ("=PX=%#e/1;#1/1;", true),
    ("=PX!=%#e/1;#1/1;", false),
    ("=PX&a1=%#e/1;PXa1", true),
    ("=PX&a1!=%#e/1;#0/1;", true),
    ("=PU0,1:=%#e/1;a1PU0,1:Ta1", true),
    ("=PU1,1:!=%#e/1;a1#0/1;", true),
    ("=PU0,1:T&a1=%#e/1;PU0,1:Ta1", true),
];

/// Bodies with a gap for a path of the numerator `e`, and whether they hold everywhere.
fn closed_places(e: usize) -> Vec<(String, bool)> {
    let mut list = Vec::new();
    for (relation, met) in [("<", e == 0), ("L", e == 0), ("=", false), ("G", e == 1), (">", e == 1)] {
        list.push((format!("{relation}%#1/2;"), met));
        // On the other side the order is turned.
        list.push((format!("{relation}#1/2;%"), !met && relation != "="));
        list.push((format!("{relation}%#{e}/1;"), "L=G".contains(relation)));
    }
    for operation in ["+", "-", "*"] {
        for other in ["#1/2;", "PXa1", "PU0,60:TT"] {
            list.push((format!("={operation}%{other}{operation}#{e}/1;{other}"), true));
            list.push((format!("<{operation}{other}%{operation}{other}#{e}/1;"), false));
        }
    }
    for (body, holds) in INSIDE {
        list.push((body.replace('e', &e.to_string()), holds));
    }
    list
}

/// v = 0 at every place: nexts and untils that name nothing, for windows from 0..0 to 60..60, under each comparison and
/// operation on either side and inside other paths, under one to four letters. Each is 0/1 or 1/1.
pub fn compare_nothing<L: Questions>(lib: &L, seed: u64) -> Tally {
    let mut rng = Rng::new(seed);
    let mut both = [Tally::new("no variable"), Tally::new("numerators of no variable")];
    let mut turn = 0;
    for d in [4, 65_535, 1] {
        for letters in 1..=4 {
            for (path, e) in closed_paths() {
                let places = closed_places(e);
                let (body, holds) = &places[turn % places.len()];
                let text = format!("{}.{}", &"AEEA"[..letters], body.replace('%', &path)).into_bytes();
                let n = rng.between(1, 2) as u32;
                let pair = Pair { file: file_of(&any_with(&mut rng, n, 1, d)), text };
                let found = asked(lib, &mut rng, &mut both, &pair).expect("an answer");
                agree("the verdict of second", holds, &found.holds, || shown(&pair));
                let number = body.split('%').next().map_or(0, |front| front.matches('P').count());
                let expected =
                    Fractions { tops: vec![e as u64; (n as usize).pow(letters as u32)], bottom: 1 };
                agree("v = 0 in second", &expected, &found.paths[number], || shown(&pair));
                turn += 1;
            }
        }
    }
    joined(both)
}

/// One fraction at one tuple.
fn fraction<L: Questions>(
    lib: &L,
    model: &Model,
    text: &str,
    (path, tuple): (usize, &[u8]),
    expected: (u64, u64),
) {
    let got = lib.numerator(&file_of(model), text.as_bytes(), tuple, path, &mut [1; ENOUGH]);
    agree("the example's fraction", &Ok(expected), &got, || format!("  {text}, path {path} at {tuple:?}\n"));
}

/// One verdict, and what all n variables stepping would give.
fn said<L: Questions>(lib: &L, model: &Model, text: &str, expected: bool, base: Result<bool, u8>) {
    let file = file_of(model);
    let got = lib.verdict(&file, text.as_bytes(), &mut [1; ENOUGH]);
    agree("the example's verdict", &Ok(expected), &got, || format!("  {text}\n"));
    let before = base_answer(&file, text.as_bytes(), Way::Table).map(|found| found.holds);
    agree("the base's verdict", &base, &before, || format!("  {text}\n"));
}

/// The request's examples, and others whose numbers follow from its words.
pub fn compare_naming_examples<L: Questions>(lib: &L) {
    for (text, path, tuple, expected) in [
        ("AA.=PXa1PXa2", 0, &[0, 0][..], (1, 4)),
        ("AA.=PXa1PXa2", 1, &[0, 1], (4, 4)),
        ("AA.=PX&a1a2#0/1;", 0, &[0, 0], (1, 16)),
        ("AAA.=PX&a1a3PU0,2:Ta2", 0, &[0, 1, 1], (4, 16)),
        ("AAA.=PX&a1a3PU0,2:Ta2", 1, &[1, 0, 1], (7, 16)),
        ("AAAA.=PX&a4&a4a4#0/1;", 0, &[1, 1, 1, 0], (1, 4)),
        // PXa2 is above 1/4 just where variable 2 has state 1.
        ("AAA.=PX&a1>PXa2#1/4;#0/1;", 0, &[0, 0, 1], (1, 16)),
        ("AAA.=PX&a1>PXa2#1/4;#0/1;", 1, &[1, 0, 1], (1, 4)),
        ("AAA.=PX>PXa2#1/4;#0/1;", 0, &[0, 0, 1], (1, 4)),
        ("AA.=PXTPU0,60:!TT", 0, &[0, 1], (1, 1)),
        ("AA.=PXTPU0,60:!TT", 1, &[0, 1], (1, 1)),
        ("AA.=PXTPU1,60:!TT", 1, &[0, 1], (0, 1)),
    ] {
        fraction(lib, &m1(), text, (path, tuple), expected);
    }
    said(lib, &m1(), "AA.=PXa1PXa2", false, Ok(false));
    said(lib, &m1(), "AE.=PXa1PXa2", true, Ok(true));
    said(lib, &m1(), "AA.GPU0,31:Ta2#0/1;", true, Err(10));
    windows_of_15(lib);
}

/// Four variables, each path naming one, D = 2, windows of 15. State 0 goes to state 1 or stays, and state 1 stays: of the 2^15
/// runs from state 0 all but one come to state 1.
fn windows_of_15<L: Questions>(lib: &L) {
    let mut model = Model { n: 2, a: 1, d: 2, ..Model::empty() };
    model.masks[1] = 1;
    model.weights[0][..2].copy_from_slice(&[1, 1]);
    model.weights[1][1] = 2;
    let sum = "+PU0,15:Ta1+PU0,15:Ta2+PU0,15:Ta3PU0,15:Ta4";
    let pairs = "+PU0,15:Ta1PU0,15:Ta2+PU0,15:Ta3PU0,15:Ta4";
    for at in 0..16 {
        let tuple = members(2, 4, at);
        for (path, &state) in tuple.iter().enumerate() {
            let expected = (32_767 + u64::from(state), 32_768);
            fraction(lib, &model, &format!("AAAA.>{sum}#3/1;"), (path, &tuple), expected);
            fraction(lib, &model, &format!("EAEA.={pairs}"), (path, &tuple), expected);
        }
    }
    said(lib, &model, &format!("AAAA.>{sum}#3/1;"), true, Err(10));
    said(lib, &model, &format!("AAAA.<{sum}#4/1;"), false, Err(10));
    said(lib, &model, &format!("EEEE.={sum}#4/1;"), true, Err(10));
    said(lib, &model, &format!("AAEE.={pairs}"), true, Err(10));
    said(lib, &model, &format!("EAAA.G{pairs}"), false, Err(10));
    said(
        lib,
        &model,
        "AAAA.&&&GPU0,15:Ta1PU0,15:a1a1GPU0,15:Ta2PXa2GPU0,15:Ta3PXa3GPU0,15:Ta4PXa4",
        true,
        Err(10),
    );
}
