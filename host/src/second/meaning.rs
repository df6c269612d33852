//! The meaning of a sentence on a model: verdicts and numerators
//! (document 01, 'Meaning'; document 02, T-02, T-05, T-07 and T-09; refusals 1 to 11 and 15).
//!
//! The runs of a path are runs of the variables that occur in it. The others stay
//! as they are at the start; no formula of the path looks at them.
//!
//! A path's numerators are found in two ways. [`Way::Runs`] lists every run and
//! asks of each whether the path takes it, in the words of the definition.
//! [`Way::Table`] works backwards over the window and serves where the runs are
//! too many to list. The runs that a path does not take have a sum of their own,
//! [`sums`], by the same listing.
//!
//! What a sentence meant before T-02, when all n variables stepped, is
//! [`base_answer`], to be compared with.

use super::model::{read_model, Model};
use super::sentence::{read_sentence, Node, Relation, Sentence, LETTERS};

/// The most tuples of a question that is answered.
pub const TUPLES: usize = 1_024;
/// The numbers of 64 bits that a work area must have for each tuple.
pub const PER_TUPLE: usize = 8;
/// A length of a work area that is enough for every question.
pub const ENOUGH: usize = PER_TUPLE * TUPLES;
/// The end of the size rule.
const END: u128 = 1 << 62;
/// The most runs, from all tuples together, that [`Way::Fitting`] lists.
const RUNS: u64 = 2_048;

/// How the numerators of a path are found.
#[derive(Clone, Copy, Debug, PartialEq, Eq)]
pub enum Way {
    /// By listing every run, each once.
    Runs,
    /// By a table over the moments of the window.
    Table,
    /// By listing where the runs are few, by a table elsewhere.
    Fitting,
}

/// The numerators of one path formula, one for each tuple (variable 1 counts
/// most in a tuple's number), and their denominator.
#[derive(Clone, Debug, PartialEq, Eq)]
pub struct Fractions {
    /// The numerator at each tuple.
    pub tops: Vec<u64>,
    /// The denominator.
    pub bottom: u64,
}

/// The weights of the runs of one path formula from each tuple. Each is a sum
/// over runs: neither is found from the other or from the denominator.
#[derive(Clone, Debug, PartialEq, Eq)]
pub struct Sums {
    /// The total weight of the runs taken, at each tuple.
    pub taken: Vec<u64>,
    /// The total weight of the runs not taken, at each tuple.
    pub not_taken: Vec<u64>,
}

/// What a sentence means on a model: its verdict, and the fractions of its
/// path formulas in written order.
#[derive(Clone, Debug, PartialEq, Eq)]
pub struct Answer {
    /// Whether the sentence holds.
    pub holds: bool,
    /// Whether some expression is below zero at some tuple.
    pub below_zero: bool,
    /// The fractions of each path formula, in written order.
    pub paths: Vec<Fractions>,
}

/// Whether a sentence holds on a model. Refusals 2 to 11, then 1.
pub fn verdict(file: &[u8], text: &[u8], work: &mut [u64]) -> Result<bool, u8> {
    let question = Question::of(file, text)?;
    let area = needed(work, question.tuples)?;
    let holds = question.answer(Way::Fitting).holds;
    area.fill(0);
    Ok(holds)
}

/// The numerator and denominator of one path formula at one tuple. Refusals 2 to 11, 15, then 1.
pub fn numerator(
    file: &[u8],
    text: &[u8],
    tuple: &[u8],
    path: usize,
    work: &mut [u64],
) -> Result<(u64, u64), u8> {
    let question = Question::of(file, text)?;
    let n_states = question.model.n as usize;
    if tuple.len() != question.sentence.letters || tuple.iter().any(|&s| usize::from(s) >= n_states) {
        return Err(15);
    }
    if path >= question.sentence.path_places().count() {
        return Err(15);
    }
    let area = needed(work, question.tuples)?;
    let at = tuple.iter().fold(0, |number, &s| number * n_states + usize::from(s));
    let fractions = &question.answer(Way::Fitting).paths[path];
    area.fill(0);
    Ok((fractions.tops[at], fractions.bottom))
}

/// T, the number of tuples of a sentence on a model.
pub fn tuple_count(model: &Model, sentence: &Sentence) -> usize {
    (model.n as usize).pow(sentence.letters as u32)
}

/// The front of a work area that a question of so many tuples needs. Refusal 1.
pub fn needed(work: &mut [u64], tuples: usize) -> Result<&mut [u64], u8> {
    work.get_mut(..PER_TUPLE * tuples).ok_or(1)
}

/// Everything that a sentence means on a model, found in the given way. Refusals 2 to 11.
pub fn answer(file: &[u8], text: &[u8], way: Way) -> Result<Answer, u8> {
    answer_by(named, file, text, way)
}

/// The weights of the runs that a path formula takes and of those that it does
/// not, by listing every run, however many there are. Refusals 2 to 11, 15.
pub fn sums(file: &[u8], text: &[u8], path: usize) -> Result<Sums, u8> {
    let question = Question::of(file, text)?;
    let path = path_of(&question.sentence, question.stepping, path).ok_or(15)?;
    Ok(question.sums(&path))
}

/// Everything that a sentence meant before T-02: all n variables step in every
/// path, and the size rule goes by their denominators. Refusals 2 to 11.
pub fn base_answer(file: &[u8], text: &[u8], way: Way) -> Result<Answer, u8> {
    answer_by(all_variables, file, text, way)
}

/// Everything that a sentence means if these variables step. Refusals 2 to 11.
pub fn answer_by(stepping: Stepping, file: &[u8], text: &[u8], way: Way) -> Result<Answer, u8> {
    Ok(Question::on_rows(read_model(file)?.filled(), text, stepping)?.answer(way))
}

/// Everything that a sentence means on a record's rows as they are given. Refusals 6 to 11.
pub fn answer_on_rows(model: Model, text: &[u8], way: Way) -> Result<Answer, u8> {
    Ok(Question::on_rows(model, text, named)?.answer(way))
}

/// Whether the size rule refuses a sentence that can be read, for a given D.
pub fn too_large(sentence: &Sentence, d: u32) -> bool {
    too_large_by(named, sentence, d)
}

/// Whether the size rule would refuse it if these variables stepped.
pub fn too_large_by(stepping: Stepping, sentence: &Sentence, d: u32) -> bool {
    size_of_formula(&body_of(sentence, stepping), d).is_none()
}

/// Which variables step in the runs of a path of a sentence, 1 for the first,
/// ascending. The path is given by its nodes, those of paths inside it included.
pub type Stepping = fn(&Sentence, &[Node]) -> Vec<usize>;

/// The different variables that occur in a path, paths inside it included.
pub fn named(_: &Sentence, path: &[Node]) -> Vec<usize> {
    let is_of =
        |node: &Node, v: usize| matches!(node, Node::Label { variable, .. } if usize::from(*variable) == v);
    (1..=LETTERS).filter(|&v| path.iter().any(|node| is_of(node, v))).collect()
}

/// All n variables, whatever a path names.
pub fn all_variables(sentence: &Sentence, _: &[Node]) -> Vec<usize> {
    (1..=sentence.letters).collect()
}

/// A state formula, with what it contains.
enum Formula {
    True,
    Label { label: u8, variable: usize },
    Not(Box<Formula>),
    And(Box<Formula>, Box<Formula>),
    Compare(Relation, Expression, Expression),
}

/// An expression, with what it contains.
enum Expression {
    Probability(Box<Path>),
    Constant { top: u32, bottom: u32 },
    Sum(Box<Expression>, Box<Expression>),
    Difference(Box<Expression>, Box<Expression>),
    Product(Box<Expression>, Box<Expression>),
}

/// A path, with what it contains, its number among the path formulas, and the
/// variables that step in its runs.
struct Path {
    number: usize,
    stepping: Vec<usize>,
    kind: PathKind,
}

/// The two kinds of path.
enum PathKind {
    Next(Formula),
    Until { from: usize, to: usize, first: Formula, second: Formula },
}

/// The body of a sentence that can be read, as a formula.
fn body_of(sentence: &Sentence, stepping: Stepping) -> Formula {
    let mut growing = Growing { sentence, stepping, at: 0, paths: 0 };
    growing.formula()
}

/// The path formula with a number; nothing if there is none.
fn path_of(sentence: &Sentence, stepping: Stepping, number: usize) -> Option<Path> {
    let at = sentence.path_places().nth(number)?;
    let mut growing = Growing { sentence, stepping, at, paths: number };
    Some(growing.path())
}

/// A sentence's list of nodes on its way to becoming a formula.
struct Growing<'a> {
    sentence: &'a Sentence,
    stepping: Stepping,
    at: usize,
    paths: usize,
}

impl Growing<'_> {
    /// Takes the next node.
    fn node(&mut self) -> Node {
        self.at += 1;
        self.sentence.nodes[self.at - 1]
    }

    /// Takes one state formula.
    fn formula(&mut self) -> Formula {
        match self.node() {
            Node::True => Formula::True,
            Node::Label { label, variable } => Formula::Label { label, variable: usize::from(variable) },
            Node::Not => Formula::Not(Box::new(self.formula())),
            Node::And => {
                let left = self.formula();
                Formula::And(Box::new(left), Box::new(self.formula()))
            }
            Node::Compare(relation) => {
                let left = self.expression();
                Formula::Compare(relation, left, self.expression())
            }
            other => panic!("{other:?} is no state formula"),
        }
    }

    /// Takes one expression.
    fn expression(&mut self) -> Expression {
        match self.node() {
            Node::Probability => Expression::Probability(Box::new(self.path())),
            Node::Constant { top, bottom } => Expression::Constant { top, bottom },
            Node::Sum => self.two(Expression::Sum),
            Node::Difference => self.two(Expression::Difference),
            Node::Product => self.two(Expression::Product),
            other => panic!("{other:?} is no expression"),
        }
    }

    /// Takes the two operands of an expression.
    fn two(&mut self, of: fn(Box<Expression>, Box<Expression>) -> Expression) -> Expression {
        let left = self.expression();
        of(Box::new(left), Box::new(self.expression()))
    }

    /// Takes one path; path formulas are numbered by where they begin.
    fn path(&mut self) -> Path {
        let (number, begin) = (self.paths, self.at);
        self.paths += 1;
        let kind = match self.node() {
            Node::Next => PathKind::Next(self.formula()),
            Node::Until { from, to } => {
                let first = self.formula();
                PathKind::Until { from: from as usize, to: to as usize, first, second: self.formula() }
            }
            other => panic!("{other:?} is no path"),
        };
        let stepping = (self.stepping)(self.sentence, &self.sentence.nodes[begin..self.at]);
        Path { number, stepping, kind }
    }
}

/// A number that the size rule allows.
fn allowed(number: u128) -> Option<u128> {
    (number <= END).then_some(number)
}

/// Walks a state formula by the size rule; nothing if the rule refuses it.
fn size_of_formula(formula: &Formula, d: u32) -> Option<()> {
    match formula {
        Formula::True | Formula::Label { .. } => Some(()),
        Formula::Not(inner) => size_of_formula(inner, d),
        Formula::And(left, right) => {
            size_of_formula(left, d)?;
            size_of_formula(right, d)
        }
        Formula::Compare(_, left, right) => {
            let (d1, m1) = size_of_expression(left, d)?;
            let (d2, m2) = size_of_expression(right, d)?;
            allowed(m1 * d2)?;
            allowed(m2 * d1)?;
            Some(())
        }
    }
}

/// The denominator d and the bound m of an expression; nothing if the rule refuses it.
fn size_of_expression(expression: &Expression, d: u32) -> Option<(u128, u128)> {
    let (bottom, bound) = match expression {
        Expression::Probability(path) => {
            let steps = match &path.kind {
                PathKind::Next(inner) => {
                    size_of_formula(inner, d)?;
                    1
                }
                PathKind::Until { to, first, second, .. } => {
                    size_of_formula(first, d)?;
                    size_of_formula(second, d)?;
                    *to
                }
            };
            let bottom = power(d, path.stepping.len() * steps)?;
            (bottom, bottom)
        }
        Expression::Constant { top, bottom } => (u128::from(*bottom), u128::from(*top)),
        Expression::Sum(left, right) | Expression::Difference(left, right) => {
            let (d1, m1) = size_of_expression(left, d)?;
            let (d2, m2) = size_of_expression(right, d)?;
            (d1 * d2, m1 * d2 + m2 * d1)
        }
        Expression::Product(left, right) => {
            let (d1, m1) = size_of_expression(left, d)?;
            let (d2, m2) = size_of_expression(right, d)?;
            (d1 * d2, m1 * m2)
        }
    };
    Some((allowed(bottom)?, allowed(bound)?))
}

/// D to a power; nothing if that is above the end of the size rule.
fn power(d: u32, exponent: usize) -> Option<u128> {
    (0..exponent).try_fold(1, |product: u128, _| allowed(product * u128::from(d)))
}

/// Whether some label letter of a sentence is not below A.
fn names_a_label_beyond(sentence: &Sentence, a: u32) -> bool {
    let list = &sentence.nodes[..sentence.count];
    list.iter().any(|node| matches!(node, Node::Label { label, .. } if u32::from(*label) >= a))
}

/// A filled model and a sentence that no row from 2 to 11 refuses, and which variables step.
struct Question {
    model: Model,
    sentence: Sentence,
    stepping: Stepping,
    tuples: usize,
}

/// The values of an expression: a numerator with its sign at each tuple, and a denominator.
struct Values {
    tops: Vec<i128>,
    bottom: i128,
}

impl Question {
    /// Rows 2 to 11, in their order. The model's rows are those after filling.
    fn of(file: &[u8], text: &[u8]) -> Result<Question, u8> {
        Question::on_rows(read_model(file)?.filled(), text, named)
    }

    /// Rows 6 to 11, in their order.
    fn on_rows(model: Model, text: &[u8], stepping: Stepping) -> Result<Question, u8> {
        let sentence = read_sentence(text)?;
        if names_a_label_beyond(&sentence, model.a) {
            return Err(9);
        }
        if too_large_by(stepping, &sentence, model.d) {
            return Err(10);
        }
        let tuples = tuple_count(&model, &sentence);
        if tuples > TUPLES {
            return Err(11);
        }
        Ok(Question { model, sentence, stepping, tuples })
    }

    /// The verdict and the fractions of every path formula.
    fn answer(&self, way: Way) -> Answer {
        let mut found = self.nothing_found();
        let truth = self.formula(&body_of(&self.sentence, self.stepping), way, &mut found);
        let prefix = &self.sentence.exists[..self.sentence.letters];
        found.holds = self.prefix(prefix, &truth);
        found
    }

    /// An answer to be filled in.
    fn nothing_found(&self) -> Answer {
        let paths = vec![Fractions { tops: Vec::new(), bottom: 0 }; self.sentence.path_places().count()];
        Answer { holds: false, below_zero: false, paths }
    }

    /// The prefix over the body's truth at each tuple, the first letter outermost.
    fn prefix(&self, exists: &[bool], truth: &[bool]) -> bool {
        let Some((&first, inner)) = exists.split_first() else {
            return truth[0];
        };
        let mut parts = truth.chunks(truth.len() / self.model.n as usize);
        if first {
            parts.any(|part| self.prefix(inner, part))
        } else {
            parts.all(|part| self.prefix(inner, part))
        }
    }

    /// The state of a variable, 1 for the first, in a tuple.
    fn member(&self, tuple: usize, variable: usize) -> usize {
        let n_states = self.model.n as usize;
        tuple / n_states.pow((self.sentence.letters - variable) as u32) % n_states
    }

    /// The truth of a state formula at each tuple.
    fn formula(&self, formula: &Formula, way: Way, found: &mut Answer) -> Vec<bool> {
        match formula {
            Formula::True => vec![true; self.tuples],
            Formula::Label { label, variable } => (0..self.tuples)
                .map(|tuple| self.model.masks[self.member(tuple, *variable)] >> label & 1 == 1)
                .collect(),
            Formula::Not(inner) => self.formula(inner, way, found).iter().map(|truth| !truth).collect(),
            Formula::And(left, right) => {
                let left = self.formula(left, way, found);
                let right = self.formula(right, way, found);
                left.iter().zip(&right).map(|(&a, &b)| a && b).collect()
            }
            Formula::Compare(relation, left, right) => {
                let left = self.expression(left, way, found);
                let right = self.expression(right, way, found);
                let sides = left.tops.iter().zip(&right.tops);
                sides.map(|(&a, &b)| meets(*relation, a * right.bottom, b * left.bottom)).collect()
            }
        }
    }

    /// The value of an expression at each tuple.
    fn expression(&self, expression: &Expression, way: Way, found: &mut Answer) -> Values {
        match expression {
            Expression::Probability(path) => {
                let fractions = self.path(path, way, found);
                let tops = fractions.tops.iter().map(|&top| i128::from(top)).collect();
                let bottom = i128::from(fractions.bottom);
                found.paths[path.number] = fractions;
                Values { tops, bottom }
            }
            Expression::Constant { top, bottom } => {
                Values { tops: vec![i128::from(*top); self.tuples], bottom: i128::from(*bottom) }
            }
            Expression::Sum(left, right) => {
                self.both(left, right, way, found, |(a, d1), (b, d2)| a * d2 + b * d1)
            }
            Expression::Difference(left, right) => {
                self.both(left, right, way, found, |(a, d1), (b, d2)| a * d2 - b * d1)
            }
            Expression::Product(left, right) => self.both(left, right, way, found, |(a, _), (b, _)| a * b),
        }
    }

    /// The value of an expression with two operands; `top` makes the new
    /// numerator of two fractions over the product of their denominators.
    fn both(
        &self,
        left: &Expression,
        right: &Expression,
        way: Way,
        found: &mut Answer,
        top: fn((i128, i128), (i128, i128)) -> i128,
    ) -> Values {
        let left = self.expression(left, way, found);
        let right = self.expression(right, way, found);
        let sides = left.tops.iter().zip(&right.tops);
        let tops: Vec<i128> = sides.map(|(&a, &b)| top((a, left.bottom), (b, right.bottom))).collect();
        found.below_zero |= tops.iter().any(|&top| top < 0);
        Values { tops, bottom: left.bottom * right.bottom }
    }

    /// The fractions of a path formula.
    fn path(&self, path: &Path, way: Way, found: &mut Answer) -> Fractions {
        let (stepping, taking) = (&path.stepping, self.taking(path, way, found));
        let steps = taking.steps();
        let tops = match (self.resolved(way, stepping, steps), &taking) {
            (Way::Runs, _) => self.by_runs(stepping, steps, &|run| taking.takes(run)),
            (_, Taking::Next(truth)) => {
                self.step(stepping, truth.iter().map(|&truth| u64::from(truth)).collect())
            }
            (_, Taking::Until { from, to, first, second }) => {
                self.until_table(stepping, (*from, *to), first, second)
            }
        };
        Fractions { tops, bottom: self.joint_power(stepping, steps) }
    }

    /// The weights of the runs of a path formula, each run listed and asked.
    fn sums(&self, path: &Path) -> Sums {
        let taking = self.taking(path, Way::Runs, &mut self.nothing_found());
        let by_runs =
            |taken: bool| self.by_runs(&path.stepping, taking.steps(), &|run| taking.takes(run) == taken);
        Sums { taken: by_runs(true), not_taken: by_runs(false) }
    }

    /// A path formula with the truth of its formulas at each tuple.
    fn taking(&self, path: &Path, way: Way, found: &mut Answer) -> Taking {
        match &path.kind {
            PathKind::Next(inner) => Taking::Next(self.formula(inner, way, found)),
            PathKind::Until { from, to, first, second } => {
                let first = self.formula(first, way, found);
                Taking::Until { from: *from, to: *to, first, second: self.formula(second, way, found) }
            }
        }
    }

    /// How many tuples the stepping variables have by themselves.
    fn small_tuples(&self, stepping: &[usize]) -> usize {
        (self.model.n as usize).pow(stepping.len() as u32)
    }

    /// The way for runs of so many steps: listing only where there are few.
    fn resolved(&self, way: Way, stepping: &[usize], steps: usize) -> Way {
        let from_one = (self.small_tuples(stepping) as u64).checked_pow(steps as u32);
        let all = from_one.and_then(|runs| runs.checked_mul(self.tuples as u64));
        match way {
            Way::Fitting if all.is_some_and(|runs| runs <= RUNS) => Way::Runs,
            Way::Fitting => Way::Table,
            other => other,
        }
    }

    /// D to the power v × steps: the weight of all runs of so many steps from a tuple.
    fn joint_power(&self, stepping: &[usize], steps: usize) -> u64 {
        u64::from(self.model.d).pow((stepping.len() * steps) as u32)
    }

    /// The states of the stepping variables in a tuple of their own, given by its number.
    fn states(&self, stepping: &[usize], mut number: usize) -> [usize; LETTERS] {
        let n_states = self.model.n as usize;
        let mut states = [0; LETTERS];
        for state in states[..stepping.len()].iter_mut().rev() {
            *state = number % n_states;
            number /= n_states;
        }
        states
    }

    /// The joint weight between two tuples of the stepping variables.
    fn joint_weight(&self, stepping: &[usize], from: usize, to: usize) -> u64 {
        let (from, to) = (self.states(stepping, from), self.states(stepping, to));
        (0..stepping.len()).map(|i| u64::from(self.model.weights[from[i]][to[i]])).product()
    }

    /// The tuple of n states in which the stepping variables have the states of
    /// their own tuple `number`, and the others those of `start`.
    fn placed(&self, start: usize, stepping: &[usize], number: usize) -> usize {
        let states = self.states(stepping, number);
        (1..=self.sentence.letters).fold(0, |tuple, variable| {
            let place = stepping.iter().position(|&other| other == variable);
            let state = place.map_or(self.member(start, variable), |place| states[place]);
            tuple * self.model.n as usize + state
        })
    }

    /// At each tuple, the total weight of the runs counted that start there.
    fn by_runs(&self, stepping: &[usize], steps: usize, counts: &dyn Fn(&[usize]) -> bool) -> Vec<u64> {
        // Runs of no steps go nowhere.
        let small = if steps == 0 { 0 } else { self.small_tuples(stepping) };
        let row = |s: usize| (0..small).map(|t| self.joint_weight(stepping, s, t)).collect();
        let weights: Vec<Vec<u64>> = (0..small).map(row).collect();
        let total = |start: usize| {
            let places = (0..small).map(|number| self.placed(start, stepping, number)).collect();
            let here = stepping.iter().fold(0, |at, &v| at * self.model.n as usize + self.member(start, v));
            Runs { weights: &weights, places, counts }.total(&mut vec![start], here, steps, 1)
        };
        (0..self.tuples).map(total).collect()
    }

    /// One step back, one variable at a time: at each tuple, the sum over the
    /// tuples that differ from it in stepping variables alone of the joint weight
    /// to it times its value.
    fn step(&self, stepping: &[usize], mut values: Vec<u64>) -> Vec<u64> {
        let n_states = self.model.n as usize;
        for &variable in stepping {
            let stride = n_states.pow((self.sentence.letters - variable) as u32);
            let mut stepped = vec![0; values.len()];
            for (tuple, sum) in stepped.iter_mut().enumerate() {
                let state = tuple / stride % n_states;
                let base = tuple - state * stride;
                for (t, &weight) in self.model.weights[state][..n_states].iter().enumerate() {
                    *sum += u64::from(weight) * values[base + t * stride];
                }
            }
            values = stepped;
        }
        values
    }

    /// The numerators of until, from the last moment of the window back to the
    /// first of the run. The table at moment i holds, for each tuple, the weight
    /// of the rest of the runs taken that stand there at i, no earlier position
    /// having decided.
    fn until_table(
        &self,
        stepping: &[usize],
        (from, to): (usize, usize),
        first: &[bool],
        second: &[bool],
    ) -> Vec<u64> {
        let mut later = vec![0; self.tuples];
        for moment in (0..=to).rev() {
            let stepped = if moment == to { vec![0; self.tuples] } else { self.step(stepping, later) };
            let all = self.joint_power(stepping, to - moment);
            later = (0..self.tuples)
                .map(|tuple| {
                    if moment >= from && second[tuple] {
                        all
                    } else if first[tuple] {
                        stepped[tuple]
                    } else {
                        0
                    }
                })
                .collect();
        }
        later
    }
}

/// A path, with the truth of its formulas at each tuple.
enum Taking {
    Next(Vec<bool>),
    Until { from: usize, to: usize, first: Vec<bool>, second: Vec<bool> },
}

impl Taking {
    /// The steps of the path's runs.
    fn steps(&self) -> usize {
        match self {
            Taking::Next(_) => 1,
            Taking::Until { to, .. } => *to,
        }
    }

    /// Next takes a run whose position 1 meets the formula. Until with window
    /// from..to takes a run if some j of the window has position j meet the second
    /// formula while positions 0..j−1 all meet the first.
    fn takes(&self, run: &[usize]) -> bool {
        match self {
            Taking::Next(truth) => truth[run[1]],
            Taking::Until { from, to, first, second } => {
                (*from..=*to).any(|j| second[run[j]] && run[..j].iter().all(|&position| first[position]))
            }
        }
    }
}

/// The runs from one tuple, of the stepping variables alone.
struct Runs<'a> {
    /// The joint weights between the tuples of the stepping variables.
    weights: &'a [Vec<u64>],
    /// For each of those tuples the tuple of n states: the other variables stay as they are at the start.
    places: Vec<usize>,
    /// Whether a run counts, of whose positions the tuples of n states are given.
    counts: &'a dyn Fn(&[usize]) -> bool,
}

impl Runs<'_> {
    /// The total weight of the runs counted that begin as `run` does, now stand at
    /// the tuple `here` of the stepping variables, and go on for `steps` more
    /// steps; `weight` is the weight of `run` itself.
    fn total(&self, run: &mut Vec<usize>, here: usize, steps: usize, weight: u64) -> u64 {
        if steps == 0 {
            return if (self.counts)(run) { weight } else { 0 };
        }
        let mut total = 0;
        for (next, &place) in self.places.iter().enumerate() {
            run.push(place);
            total += self.total(run, next, steps - 1, weight * self.weights[here][next]);
            run.pop();
        }
        total
    }
}

/// Whether two numbers stand in a relation.
fn meets(relation: Relation, left: i128, right: i128) -> bool {
    match relation {
        Relation::Less => left < right,
        Relation::AtMost => left <= right,
        Relation::Equal => left == right,
        Relation::AtLeast => left >= right,
        Relation::Greater => left > right,
    }
}

#[cfg(test)]
mod tests {
    use super::super::model::examples::{halted, m1, m2};
    use super::super::model::write_model;
    use super::*;

    fn file(model: &Model) -> Vec<u8> {
        let mut out = [0; 3_072];
        let length = write_model(model, &mut out).unwrap();
        out[..length].to_vec()
    }

    /// A model of n states, each of which stays where it is.
    fn still(n: u32, d: u32) -> Model {
        let mut model = Model { n, a: 1, d, ..Model::empty() };
        for s in 0..n as usize {
            model.weights[s][s] = d as u16;
        }
        model
    }

    fn said(model: &Model, text: &str) -> Result<bool, u8> {
        verdict(&file(model), text.as_bytes(), &mut [0; ENOUGH])
    }

    /// The fraction of the only path formula, under a prefix for the tuple.
    fn fraction(model: &Model, path: &str, tuple: &[u8]) -> (u64, u64) {
        let text = format!("{}.={path}#1/1;", "A".repeat(tuple.len()));
        let both = [Way::Runs, Way::Table].map(|way| answer(&file(model), text.as_bytes(), way).unwrap());
        assert_eq!(both[0], both[1], "{path}");
        numerator(&file(model), text.as_bytes(), tuple, 0, &mut [0; ENOUGH]).unwrap()
    }

    #[test]
    fn the_numerators_of_the_examples() {
        assert_eq!(fraction(&m1(), "PXa1", &[0]), (1, 4));
        assert_eq!(fraction(&m1(), "PXa1", &[1]), (4, 4));
        assert_eq!(fraction(&m1(), "PU0,2:Ta1", &[0]), (7, 16));
        assert_eq!(fraction(&m1(), "PU0,2:Ta1", &[1]), (16, 16));
        assert_eq!(fraction(&m1(), "PU2,2:!a1a1", &[0]), (3, 16));
        assert_eq!(fraction(&m1(), "PU2,2:!a1a1", &[1]), (0, 16));
        assert_eq!(fraction(&m1(), "PU0,2:!a1a1", &[1]), (16, 16));
        assert_eq!(fraction(&m1(), "PX&a1a2", &[0, 0]), (1, 16));
        assert_eq!(fraction(&m1(), "PX&a1a2", &[0, 1]), (4, 16));
        assert_eq!(fraction(&m2(), "PU0,2:Ta1", &[0]), (12, 16));
    }

    #[test]
    fn an_empty_row_counts_as_weight_d_to_the_state_itself() {
        // M1's masks, and no row that is not empty.
        let mut still = Model { n: 2, a: 1, d: 4, version: 1, ..Model::empty() };
        still.masks[1] = 1;
        assert_eq!([0, 1].map(|s| fraction(&still, "PXa1", &[s])), [(0, 4), (4, 4)]);
        assert_eq!([0, 1].map(|s| fraction(&still, "PU1,2:Ta1", &[s])), [(0, 16), (16, 16)]);
        assert_eq!(fraction(&still, "PX&a1a2", &[1, 1]), (16, 16));
        assert_eq!(said(&still, "A.=PXTPU0,3:TT"), Ok(true));
        for path in ["PXa1", "PU0,2:Ta1", "PU2,2:!a1a1", "PX!a1", "PU1,3:a1a1"] {
            for state in 0..3 {
                assert_eq!(fraction(&halted(), path, &[state]), fraction(&m2(), path, &[state]), "{path}");
            }
        }
        assert_eq!(fraction(&halted(), "PU0,2:Ta1", &[0]), (12, 16));
    }

    #[test]
    fn the_verdicts_of_the_examples() {
        assert_eq!(said(&m1(), "AA.=PXa1PXa2"), Ok(false));
        assert_eq!(said(&m1(), "AE.=PXa1PXa2"), Ok(true));
        assert_eq!(said(&m1(), "A.L-#1/4;PXa1#0/1;"), Ok(true));
        assert_eq!(said(&m1(), "A.=-#1/4;PXa1#0/1;"), Ok(false));
        assert_eq!(said(&m1(), "A.=PU0,0:TT#1/1;"), Ok(true));
        assert_eq!(said(&m1(), "A.GPU0,31:Ta1#0/1;"), Ok(true));
    }

    #[test]
    fn the_difference_of_the_example_is_below_zero_by_three_quarters() {
        assert_eq!(said(&m1(), "E.=-#1/4;PXa1-#0/1;#3/4;"), Ok(true));
        assert_eq!(said(&m1(), "A.&a1=-#1/4;PXa1-#0/1;#3/4;"), Ok(false));
        assert_eq!(said(&m1(), "A.!&a1!=-#1/4;PXa1-#0/1;#3/4;"), Ok(true));
    }

    #[test]
    fn the_refusals_of_the_examples() {
        assert_eq!(said(&m1(), "A.GPU0,32:Ta1#0/1;"), Err(10));
        assert_eq!(said(&m1(), "A.GPU0,31:Ta1#0/2;"), Err(10));
        assert_eq!(said(&still(32, 4), "AA.T"), Ok(true));
        assert_eq!(said(&still(11, 4), "AAA.T"), Err(11));
        assert_eq!(said(&m1(), "A.a2"), Err(7));
        assert_eq!(said(&m1(), "A.a5"), Err(6));
        assert_eq!(said(&m1(), ""), Err(6));
        assert_eq!(said(&still(2, 1), "A.=PU0,60:TT#1/1;"), Ok(true));
        assert_eq!(said(&still(2, 1), "A.=PU0,61:TT#1/1;"), Err(7));
        assert_eq!(said(&m1(), &format!("A.{}T", "!".repeat(64))), Err(8));
        assert_eq!(said(&m1(), "A.b1"), Err(9));
    }

    #[test]
    fn the_smallest_row_is_given_and_1_last() {
        let good = file(&m1());
        let path = b"A.=PXa1#0/1;";
        for room in [0, 15, 16, ENOUGH] {
            let mut work = vec![5; room];
            assert_eq!(verdict(&[], b"", &mut work), Err(2));
            assert_eq!(verdict(&[0; 512], b"", &mut work), Err(4));
            assert_eq!(verdict(&[1; 512], b"", &mut work), Err(3));
            assert_eq!(verdict(&good, b"", &mut work), Err(6));
            assert_eq!(verdict(&file(&still(11, 4)), b"AAA.T", &mut work), Err(11));
            assert_eq!(numerator(&good, b"A.b1", &[9], 7, &mut work), Err(9));
            assert_eq!(numerator(&good, path, &[2], 0, &mut work), Err(15));
            assert_eq!(numerator(&good, path, &[1, 1], 0, &mut work), Err(15));
            assert_eq!(numerator(&good, path, &[], 0, &mut work), Err(15));
            assert_eq!(numerator(&good, path, &[1], 1, &mut work), Err(15));
            assert_eq!(work, vec![5; room]);
        }
        let mut work = [5; 15];
        assert_eq!(verdict(&good, b"A.T", &mut work), Err(1));
        assert_eq!(numerator(&good, path, &[1], 0, &mut work), Err(1));
        assert_eq!(work, [5; 15]);
    }

    #[test]
    fn a_question_needs_8_numbers_for_each_tuple() {
        for (n, letters, needs) in
            [(1, 1, 8), (1, 4, 8), (2, 1, 16), (5, 1, 40), (5, 4, 5_000), (32, 2, ENOUGH)]
        {
            let model = file(&still(n, 4));
            let text = format!("{}.=PXa1#0/1;", "A".repeat(letters)).into_bytes();
            let tuple = vec![0; letters];
            let mut work = vec![5; needs + 3];
            assert_eq!(verdict(&model, &text, &mut work[..needs - 1]), Err(1));
            assert_eq!(numerator(&model, &text, &tuple, 0, &mut work[..needs - 1]), Err(1));
            assert_eq!(work, vec![5; needs + 3]);
            assert_eq!(verdict(&model, &text, &mut work[..needs]), Ok(true));
            assert_eq!((&work[..needs], &work[needs..]), (&vec![0; needs][..], &[5; 3][..]));
            work.fill(5);
            assert_eq!(numerator(&model, &text, &tuple, 0, &mut work), Ok((0, 4)));
            assert_eq!((&work[..needs], &work[needs..]), (&vec![0; needs][..], &[5; 3][..]));
        }
    }

    #[test]
    fn the_size_rule_asks_every_part() {
        let d2 = still(2, 2);
        assert_eq!(said(&d2, "A.=*PU0,60:T!a1#4/1;#0/1;"), Ok(false));
        assert_eq!(said(&d2, "A.=*PU0,60:T!a1#5/1;#0/1;"), Err(10));
        assert_eq!(said(&d2, "A.=+PU0,30:T!a1PU0,31:T!a1#2/1;"), Ok(true));
        assert_eq!(said(&d2, "A.=+PU0,31:T!a1PU0,31:T!a1#2/1;"), Err(10));
        assert_eq!(said(&d2, "A.=+PU0,30:T!a1PU0,31:T!a1#2/2;"), Err(10));
        assert_eq!(said(&d2, "A.=PXGPU0,60:T!a1#0/5;#1/1;"), Err(10));
        assert_eq!(said(&d2, "A.=PXGPU0,60:T!a1#0/4;#1/1;"), Ok(true));
        assert_eq!(said(&d2, "AAA.=PU0,21:T!&a1&a2a3#1/1;"), Err(10));
        assert_eq!(said(&d2, "AAA.=PU0,20:T!&a1&a2a3#1/1;"), Ok(true));
    }

    /// The weights of the runs of the only path formula, taken and not taken, under a prefix for the tuple. They add up
    /// to the denominator, and the former is the numerator.
    fn weighed(model: &Model, path: &str, tuple: &[u8]) -> (u64, u64) {
        let text = format!("{}.={path}#1/1;", "A".repeat(tuple.len()));
        let sums = sums(&file(model), text.as_bytes(), 0).unwrap();
        let at = tuple.iter().fold(0, |at, &state| at * model.n as usize + usize::from(state));
        let (taken, not_taken) = (sums.taken[at], sums.not_taken[at]);
        assert_eq!(fraction(model, path, tuple), (taken, taken + not_taken), "{path}");
        (taken, not_taken)
    }

    #[test]
    fn runs_not_taken_have_a_sum_of_their_own() {
        // From state 0 of M1: 0 1 of weight 1 is taken, 0 0 of weight 3 is not.
        assert_eq!(weighed(&m1(), "PXa1", &[0]), (1, 3));
        assert_eq!(weighed(&m1(), "PXa1", &[1]), (4, 0));
        // 0 0 1 of weight 3 and 0 1 1 of weight 4 are taken, 0 0 0 of weight 9 is not.
        assert_eq!(weighed(&m1(), "PU0,2:Ta1", &[0]), (7, 9));
        // One step more: 0 0 0 0 of weight 27 is the only run that comes nowhere.
        assert_eq!(weighed(&m1(), "PU0,3:Ta1", &[0]), (37, 27));
        // 0 1 1 matches too early, and then the first formula is not met.
        assert_eq!(weighed(&m1(), "PU2,2:!a1a1", &[0]), (3, 4 + 9));
        assert_eq!(weighed(&m1(), "PU2,2:!a1a1", &[1]), (0, 16));
        // A run of no steps is its start, of weight 1.
        assert_eq!(weighed(&m1(), "PU0,0:Ta1", &[0]), (0, 1));
        assert_eq!(weighed(&m1(), "PU0,0:Ta1", &[1]), (1, 0));
        // Both at state 1 is 1 × 1; one of them is 1 × 3 twice, none is 3 × 3.
        assert_eq!(weighed(&m1(), "PX&a1a2", &[0, 0]), (1, 3 + 3 + 9));
        // Variable 1 stays at state 1; variable 2 goes as above.
        assert_eq!(weighed(&m1(), "PU0,2:Ta2", &[1, 0]), (7, 9));
        assert_eq!(weighed(&m1(), "PXT", &[0]), (1, 0));
        assert_eq!(weighed(&m1(), "PU1,60:!TT", &[0]), (0, 1));
        // From state 0 of M2: 0 0 0 of weight 4 is not taken. State 2 stays, its row being empty.
        assert_eq!(weighed(&halted(), "PU0,2:Ta1", &[0]), (12, 4));
        assert_eq!(weighed(&halted(), "PX!a1", &[2]), (0, 4));
    }

    #[test]
    fn sums_are_of_the_path_with_the_number() {
        // PXa1 is above 1/4 just at state 1, so the outer path is as PXa1.
        let sums = |path: usize| sums(&file(&m1()), b"A.<PX>PXa1#1/4;PU0,2:Ta1", path);
        assert_eq!(sums(0), Ok(Sums { taken: vec![1, 4], not_taken: vec![3, 0] }));
        assert_eq!(sums(1), Ok(Sums { taken: vec![1, 4], not_taken: vec![3, 0] }));
        assert_eq!(sums(2), Ok(Sums { taken: vec![7, 16], not_taken: vec![9, 0] }));
        assert_eq!(sums(3), Err(15));
        assert_eq!(super::sums(&file(&m1()), b"A.GPU0,32:Ta1#0/1;", 0), Err(10));
    }

    /// The variables that step in each path of a text, in written order.
    fn stepping(text: &str) -> Vec<Vec<usize>> {
        let sentence = read_sentence(text.as_bytes()).unwrap();
        let paths = (0..).map_while(|number| path_of(&sentence, named, number));
        paths.map(|path| path.stepping).collect()
    }

    #[test]
    fn a_path_names_the_different_variables_in_it_and_in_paths_inside() {
        assert_eq!(stepping("AAAA.=PXa1PXa4"), [[1], [4]]);
        assert_eq!(stepping("AAAA.&a1GPU0,3:!b2&b2a2PXT"), [vec![2], vec![]]);
        assert_eq!(stepping("AAA.&a2>PU0,1:b3a1#1/2;"), [[1, 3]]);
        assert_eq!(stepping("AAAA.=PX>PXa4PX&a2a4PXa1"), [vec![2, 4], vec![4], vec![2, 4], vec![1]]);
        assert_eq!(stepping("AAA.GPU0,1:a3<PX=PXTPXa1#1/2;#0/1;"), [vec![1, 3], vec![1], vec![], vec![1]]);
    }

    #[test]
    fn only_named_variables_step() {
        assert_eq!(fraction(&m1(), "PXa1", &[0, 0]), (1, 4));
        assert_eq!(fraction(&m1(), "PXa2", &[0, 1]), (4, 4));
        assert_eq!(fraction(&m1(), "PXa2", &[1, 0]), (1, 4));
        assert_eq!(fraction(&m1(), "PU0,2:Ta3", &[1, 1, 0, 1]), (7, 16));
        assert_eq!(fraction(&m1(), "PU2,2:!a2a2", &[1, 0]), (3, 16));
        assert_eq!(fraction(&m1(), "PX&a1a3", &[0, 1, 0]), (1, 16));
        assert_eq!(fraction(&m1(), "PX&a1a3", &[0, 0, 1]), (4, 16));
        assert_eq!(fraction(&m1(), "PX&a1&a1a1", &[0, 0, 1]), (1, 4));
    }

    #[test]
    fn a_variable_named_inside_steps_outside_too() {
        // PXa2 is above 1/4 just where variable 2 has state 1.
        assert_eq!(fraction(&m1(), "PX>PXa2#1/4;", &[1, 0]), (1, 4));
        assert_eq!(fraction(&m1(), "PX&a1>PXa2#1/4;", &[0, 0]), (1, 16));
        assert_eq!(fraction(&m1(), "PX&a1>PXa2#1/4;", &[1, 0, 1]), (4, 16));
        assert_eq!(fraction(&m1(), "PU0,2:!a1>PXa3#1/4;", &[0, 1, 0]), (64 + 3 * 12, 256));
        let text = b"AAA.=PX&a1>PXa2#1/4;#0/1;";
        assert_eq!(numerator(&file(&m1()), text, &[0, 0, 0], 1, &mut [0; ENOUGH]), Ok((1, 4)));
    }

    #[test]
    fn without_a_variable_the_denominator_is_1() {
        for letters in 1..=4 {
            let zeros = &[0; 4][..letters];
            for model in [m1(), still(3, 65_535)] {
                assert_eq!(fraction(&model, "PXT", zeros), (1, 1));
                assert_eq!(fraction(&model, "PX!T", zeros), (0, 1));
                assert_eq!(fraction(&model, "PU0,60:!TT", zeros), (1, 1));
                assert_eq!(fraction(&model, "PU1,60:!TT", zeros), (0, 1));
                assert_eq!(fraction(&model, "PU60,60:TT", zeros), (1, 1));
                assert_eq!(fraction(&model, "PU0,60:T!T", zeros), (0, 1));
            }
        }
        assert_eq!(said(&m1(), "AA.=PXT+PU0,60:T!T*PXTPXT"), Ok(true));
        assert_eq!(fraction(&m1(), "PX&a2=PU0,60:TT#1/1;", &[0, 0]), (1, 4));
    }

    #[test]
    fn all_variables_stepping_gives_the_same_values_over_other_denominators() {
        let base = |text: &str| base_answer(&file(&m1()), text.as_bytes(), Way::Fitting);
        let found = base("AA.=PXa1PXT").unwrap();
        assert_eq!(found.paths[0], Fractions { tops: vec![4, 4, 16, 16], bottom: 16 });
        assert_eq!(found.paths[1], Fractions { tops: vec![16; 4], bottom: 16 });
        assert_eq!(base("AA.GPU0,16:Ta1#0/1;"), Err(10));
        assert_eq!(said(&m1(), "AA.GPU0,16:Ta1#0/1;"), Ok(true));
        assert_eq!(said(&m1(), "AA.GPU0,16:Ta1PU0,16:Ta2"), Err(10));
    }
}
