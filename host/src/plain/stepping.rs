//! One step back of the variables that a path names: at each tuple, the sum over the tuples that differ from it in those alone
//! of the joint weight to it times its value.

use super::reading::Chain;
use crate::second::meaning::TUPLES;
use std::mem::swap;

/// How a step is made, for v named variables.
#[derive(Clone, Copy, Debug, PartialEq, Eq)]
pub enum Step {
    /// By the joint weights of the named variables, T × N^v products. They are made once for paths in a row that name the same.
    Joint,
    /// One named variable at a time, v × N × T products.
    Single,
}

/// The way of stepping, with its memory.
pub struct Stepping {
    step: Step,
    /// The named variables, bit i for variable i + 1; all bits before the first path of a verdict.
    named: u8,
    /// How far apart tuples are that differ by one state in a named variable, for each of these, the first first.
    strides: Vec<usize>,
    /// Whether all variables are named.
    all: bool,
    /// For each tuple of the named variables what it adds to a tuple's number, and likewise of the others.
    places: [Vec<usize>; 2],
    /// The joint weights of the named variables, N^v in a row.
    joint: Vec<u64>,
    /// The values at the tuples that differ in named variables alone, and their sums.
    parts: [Vec<u64>; 2],
}

/// The sum of the products of two rows.
fn product(left: &[u64], right: &[u64]) -> u64 {
    left.iter().zip(right).fold(0, |sum, (a, b)| sum.wrapping_add(a.wrapping_mul(*b)))
}

/// The products of one row with many, which stand one after another: four at a time, so that four sums grow side by side.
fn products(one: &[u64], many: &[u64], sums: &mut [u64]) {
    let length = one.len();
    let mut fours = many.chunks_exact(4 * length);
    let mut places = sums.chunks_exact_mut(4);
    for (place, rows) in (&mut places).zip(&mut fours) {
        let (front, back) = rows.split_at(2 * length);
        let ((a, b), (c, d)) = (front.split_at(length), back.split_at(length));
        let mut four = [0u64; 4];
        for ((((x, a), b), c), d) in one.iter().zip(a).zip(b).zip(c).zip(d) {
            four[0] = four[0].wrapping_add(x.wrapping_mul(*a));
            four[1] = four[1].wrapping_add(x.wrapping_mul(*b));
            four[2] = four[2].wrapping_add(x.wrapping_mul(*c));
            four[3] = four[3].wrapping_add(x.wrapping_mul(*d));
        }
        place.copy_from_slice(&four);
    }
    let rest = fours.remainder().chunks_exact(length);
    places.into_remainder().iter_mut().zip(rest).for_each(|(sum, row)| *sum = product(one, row));
}

/// The sums of rows that stand one after another, each row times a weight: four columns at a time.
fn weighted(weights: &[u64], rows: &[u64], sums: &mut [u64]) {
    let length = sums.len();
    let (fours, rest) = sums.split_at_mut(length / 4 * 4);
    let done = fours.len();
    for (place, four) in fours.chunks_exact_mut(4).enumerate() {
        let mut sum = [0u64; 4];
        for (weight, row) in weights.iter().zip(rows.chunks_exact(length)) {
            let values = &row[4 * place..4 * place + 4];
            sum.iter_mut().zip(values).for_each(|(s, x)| *s = s.wrapping_add(weight.wrapping_mul(*x)));
        }
        four.copy_from_slice(&sum);
    }
    for (place, sum) in rest.iter_mut().enumerate() {
        let values = rows.chunks_exact(length).map(|row| row[done + place]);
        *sum = weights.iter().zip(values).fold(0, |sum, (w, x)| sum.wrapping_add(w.wrapping_mul(x)));
    }
}

/// One step of the last variable, which becomes the first: after as many of these as there are variables, all have stepped
/// and stand where they stood. Its rows are longer than those of [`variable`].
fn last_variable(chain: &Chain, from: &[u64], to: &mut [u64]) {
    let n = chain.n;
    let others = from.len() / n;
    let weights = &chain.weights[..n * n];
    if others == 1 {
        return products(from, weights, to);
    }
    for (sums, row) in to.chunks_exact_mut(others).zip(weights.chunks_exact(n)) {
        products(row, from, sums);
    }
}

/// One step of the variable whose states stand so far apart.
fn variable(chain: &Chain, stride: usize, from: &[u64], to: &mut [u64]) {
    let n = chain.n;
    let weights = &chain.weights[..n * n];
    for (from, to) in from.chunks_exact(n * stride).zip(to.chunks_exact_mut(n * stride)) {
        if stride == 1 {
            products(from, weights, to);
            continue;
        }
        for (row, sums) in weights.chunks_exact(n).zip(to.chunks_exact_mut(stride)) {
            weighted(row, from, sums);
        }
    }
}

/// What each tuple of the variables with these strides adds to a tuple's number, the first variable counting most.
fn places(n: usize, strides: impl Iterator<Item = usize>, places: &mut Vec<usize>) {
    places.clear();
    places.push(0);
    for stride in strides {
        let before = std::mem::take(places);
        places.extend(before.iter().flat_map(|place| (0..n).map(move |state| place + state * stride)));
    }
}

impl Stepping {
    /// The memory of a way.
    pub fn new(step: Step) -> Stepping {
        let room = if step == Step::Joint { TUPLES } else { 0 };
        Stepping {
            step,
            named: u8::MAX,
            strides: Vec::with_capacity(4),
            all: false,
            places: Default::default(),
            joint: vec![0; room * room],
            parts: std::array::from_fn(|_| vec![0; room]),
        }
    }

    /// Forgets the chain, before another verdict.
    pub fn forget(&mut self) {
        self.named = u8::MAX;
    }

    /// What the steps of a path need that names these variables.
    pub fn prepare(&mut self, chain: &Chain, letters: usize, named: u8) {
        if self.named == named {
            return;
        }
        let n = chain.n;
        let stride = |variable: usize| n.pow((letters - 1 - variable) as u32);
        let of = |set: u8| (0..letters).filter(move |variable| set >> variable & 1 == 1).map(stride);
        self.named = named;
        self.strides.clear();
        self.strides.extend(of(named));
        self.all = self.strides.len() == letters;
        if self.step == Step::Joint {
            places(n, of(named), &mut self.places[0]);
            places(n, of(!named), &mut self.places[1]);
            let tuples = self.places[0].len();
            for (s, row) in self.joint.chunks_exact_mut(tuples).take(tuples).enumerate() {
                joint_row(chain, self.strides.len(), s, row);
            }
        }
    }

    /// One step of the values, with a spare layer.
    pub fn step(&mut self, chain: &Chain, values: &mut [u64], spare: &mut [u64]) {
        match self.step {
            _ if self.strides.is_empty() => {}
            Step::Joint => self.jointly(values),
            Step::Single => {
                let (mut from, mut to) = (values, spare);
                for &stride in &self.strides {
                    if self.all {
                        last_variable(chain, from, to);
                    } else {
                        variable(chain, stride, from, to);
                    }
                    swap(&mut from, &mut to);
                }
                if self.strides.len() % 2 == 1 {
                    to.copy_from_slice(from);
                }
            }
        }
    }

    /// One step by the joint weights.
    fn jointly(&mut self, values: &mut [u64]) {
        let [places, others] = &self.places;
        let tuples = places.len();
        let [part, sums] = &mut self.parts;
        for other in others {
            part.iter_mut().zip(places).for_each(|(value, place)| *value = values[other + place]);
            products(&part[..tuples], &self.joint[..tuples * tuples], &mut sums[..tuples]);
            places.iter().zip(&*sums).for_each(|(place, sum)| values[other + place] = *sum);
        }
    }
}

/// The joint weights from a tuple of so many variables: rows of single weights, multiplied one variable after another.
fn joint_row(chain: &Chain, variables: usize, tuple: usize, row: &mut [u64]) {
    let n = chain.n;
    row[0] = 1;
    let mut filled = 1;
    for variable in 1..=variables {
        let state = tuple / n.pow((variables - variable) as u32) % n;
        let weights = &chain.weights[state * n..][..n];
        // From the back, so that what is read is not yet written over.
        for place in (0..filled).rev() {
            let factor = row[place];
            let part = &mut row[place * n..][..n];
            part.iter_mut().zip(weights).for_each(|(to, &weight)| *to = factor.wrapping_mul(weight));
        }
        filled *= n;
    }
}
