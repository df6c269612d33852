//! Two plain Rust programs that give verdicts, to time the library against: all in numbers of 64 bits and flat arrays,
//! allocated once. In a path only the variables step that occur in it; which these are is found once for each path, when the
//! text is read. The programs differ in the step alone: [`Step::Joint`] goes by the joint weights of the named variables,
//! [`Step::Single`] by one of them at a time. Each call reads the file and the text anew and gives every refusal of verdict.
//!
//! Sums and products that the size rule keeps below 2^63 are wrapping ones here, so that they are not checked.

mod reading;
mod sizes;
mod stepping;

use crate::second::meaning::{needed, TUPLES};
use crate::second::{Node, Relation};
use reading::{read_model, read_sentence, Chain, Text};
pub use stepping::Step;
use stepping::Stepping;

/// The most layers of numbers, one for each tuple, that a sentence of 64 nodes takes.
const LAYERS: usize = 70;

/// A plain program, with its memory.
pub struct Plain {
    chain: Chain,
    text: Text,
    stepping: Stepping,
    layers: Vec<u64>,
    tuples: usize,
    at: usize,
}

impl Plain {
    /// A program that steps in the given way.
    pub fn new(step: Step) -> Plain {
        Plain {
            chain: Chain::empty(),
            text: Text::empty(),
            stepping: Stepping::new(step),
            layers: vec![0; LAYERS * TUPLES],
            tuples: 0,
            at: 0,
        }
    }

    /// Whether a sentence holds on a model. Refusals 2 to 11, then 1.
    pub fn verdict(&mut self, file: &[u8], text: &[u8], work: &mut [u64]) -> Result<bool, u8> {
        read_model(file, &mut self.chain)?;
        read_sentence(text, &mut self.text)?;
        if self.text.labels > self.chain.a {
            return Err(9);
        }
        sizes::allowed(&self.text, self.chain.d)?;
        self.tuples = self.chain.n.pow(self.text.letters as u32);
        if self.tuples > TUPLES {
            return Err(11);
        }
        let area = needed(work, self.tuples)?;
        self.stepping.forget();
        self.at = 0;
        self.formula(0);
        let holds =
            quantified(&self.text.exists[..self.text.letters], self.chain.n, &self.layers[..self.tuples]);
        area.fill(0);
        Ok(holds)
    }

    /// A layer.
    fn layer(&mut self, layer: usize) -> &mut [u64] {
        &mut self.layers[layer * TUPLES..][..self.tuples]
    }

    /// A layer and the one after it.
    fn two(&mut self, layer: usize) -> (&mut [u64], &mut [u64]) {
        let (left, right) = self.layers[layer * TUPLES..].split_at_mut(TUPLES);
        (&mut left[..self.tuples], &mut right[..self.tuples])
    }

    /// Takes the next node.
    fn node(&mut self) -> Node {
        self.at += 1;
        self.text.nodes[self.at - 1]
    }

    /// The truth of the next state formula into a layer: all bits or none. Later layers are free.
    fn formula(&mut self, layer: usize) {
        match self.node() {
            Node::True => self.layer(layer).fill(u64::MAX),
            Node::Label { label, variable } => self.label(layer, label, usize::from(variable)),
            Node::Not => {
                self.formula(layer);
                self.layer(layer).iter_mut().for_each(|truth| *truth = !*truth);
            }
            Node::And => {
                self.formula(layer);
                self.formula(layer + 1);
                let (left, right) = self.two(layer);
                left.iter_mut().zip(right).for_each(|(truth, other)| *truth &= *other);
            }
            Node::Compare(relation) => {
                let d1 = self.expression(layer);
                let d2 = self.expression(layer + 1);
                let (left, right) = self.two(layer);
                compare(relation, (left, d1), (right, d2));
            }
            other => unreachable!("{other:?} is no state formula"),
        }
    }

    /// The truth of a label into a layer.
    fn label(&mut self, layer: usize, label: u8, variable: usize) {
        let (n, masks) = (self.chain.n, self.chain.masks);
        let stride = n.pow((self.text.letters - variable) as u32);
        for (place, part) in self.layer(layer).chunks_exact_mut(stride).enumerate() {
            part.fill(0u64.wrapping_sub(u64::from(masks[place % n] >> label & 1)));
        }
    }

    /// The numerators of the next expression into a layer, with their sign; gives the denominator.
    fn expression(&mut self, layer: usize) -> i64 {
        let node = self.node();
        match node {
            Node::Probability => return self.path(layer),
            Node::Constant { top, bottom } => {
                self.layer(layer).fill(u64::from(top));
                return i64::from(bottom);
            }
            _ => {}
        }
        let d1 = self.expression(layer);
        let d2 = self.expression(layer + 1);
        let (left, right) = self.two(layer);
        let both = left.iter_mut().zip(right.iter());
        let (d1u, d2u) = (d1 as u64, d2 as u64);
        match node {
            Node::Sum => both.for_each(|(a, b)| *a = a.wrapping_mul(d2u).wrapping_add(b.wrapping_mul(d1u))),
            Node::Difference => {
                both.for_each(|(a, b)| *a = a.wrapping_mul(d2u).wrapping_sub(b.wrapping_mul(d1u)))
            }
            _ => both.for_each(|(a, b)| *a = a.wrapping_mul(*b)),
        }
        d1 * d2
    }

    /// The numerators of the next path into a layer; gives the denominator.
    fn path(&mut self, layer: usize) -> i64 {
        let named = self.text.named[self.at];
        let d = u64::from(self.chain.d);
        match self.node() {
            Node::Until { from, to } => {
                self.formula(layer);
                self.formula(layer + 1);
                self.stepping.prepare(&self.chain, self.text.letters, named);
                self.until(layer, from, to, d.pow(named.count_ones()));
                d.pow(named.count_ones() * to) as i64
            }
            _ => {
                self.formula(layer);
                self.stepping.prepare(&self.chain, self.text.letters, named);
                let (values, spare) = self.layers[layer * TUPLES..].split_at_mut(TUPLES);
                let values = &mut values[..self.tuples];
                values.iter_mut().for_each(|truth| *truth &= 1);
                self.stepping.step(&self.chain, values, &mut spare[..self.tuples]);
                d.pow(named.count_ones()) as i64
            }
        }
    }

    /// The numerators of an until into a layer that holds the first formula, with the second in the next one.
    fn until(&mut self, layer: usize, from: u32, to: u32, joint: u64) {
        let tuples = self.tuples;
        let (first, rest) = self.layers[layer * TUPLES..].split_at_mut(TUPLES);
        let (second, rest) = rest.split_at_mut(TUPLES);
        let (later, spare) = rest.split_at_mut(TUPLES);
        let (first, second) = (&mut first[..tuples], &second[..tuples]);
        let (later, spare) = (&mut later[..tuples], &mut spare[..tuples]);
        later.iter_mut().zip(second).for_each(|(value, truth)| *value = truth & 1);
        let mut all = 1;
        for moment in (0..to).rev() {
            all *= joint;
            self.stepping.step(&self.chain, later, spare);
            let truths = first.iter().zip(second);
            if moment >= from {
                later.iter_mut().zip(truths).for_each(|(v, (f, s))| *v = (s & all) | (!s & f & *v));
            } else {
                later.iter_mut().zip(truths).for_each(|(v, (f, _))| *v &= f);
            }
        }
        first.copy_from_slice(later);
    }
}

/// The truth of a comparison of two layers of numerators, into the left one.
fn compare(relation: Relation, (left, d1): (&mut [u64], i64), (right, d2): (&[u64], i64)) {
    let meets = |a: i64, b: i64| match relation {
        Relation::Less => a < b,
        Relation::AtMost => a <= b,
        Relation::Equal => a == b,
        Relation::AtLeast => a >= b,
        Relation::Greater => a > b,
    };
    for (a, b) in left.iter_mut().zip(right) {
        let truth = meets((*a as i64).wrapping_mul(d2), (*b as i64).wrapping_mul(d1));
        *a = 0u64.wrapping_sub(u64::from(truth));
    }
}

/// The prefix over the truth at each tuple, the first letter outermost.
fn quantified(exists: &[bool], n: usize, truth: &[u64]) -> bool {
    let Some((&first, inner)) = exists.split_first() else {
        return truth[0] != 0;
    };
    let mut parts = truth.chunks_exact(truth.len() / n);
    if first {
        parts.any(|part| quantified(inner, n, part))
    } else {
        parts.all(|part| quantified(inner, n, part))
    }
}

#[cfg(test)]
mod tests {
    use super::*;
    use crate::compare::{compare_extreme, compare_naming, compare_verdict, Questions, Second};
    use crate::inputs::extreme::Kind;
    use crate::inputs::naming::Kind as Naming;
    use std::cell::RefCell;

    /// A plain program beside the second one; its numerators are the second one's.
    struct Asked(RefCell<Plain>);

    impl Questions for Asked {
        fn verdict(&self, file: &[u8], text: &[u8], work: &mut [u64]) -> Result<bool, u8> {
            self.0.borrow_mut().verdict(file, text, work)
        }

        fn numerator(
            &self,
            file: &[u8],
            text: &[u8],
            tuple: &[u8],
            path: usize,
            work: &mut [u64],
        ) -> Result<(u64, u64), u8> {
            Second.numerator(file, text, tuple, path, work)
        }
    }

    #[test]
    fn both_programs_agree_with_second() {
        for step in [Step::Joint, Step::Single] {
            let plain = Asked(RefCell::new(Plain::new(step)));
            compare_verdict(&plain, 10_000, 71);
            for kind in
                [Kind::Tuples, Kind::End, Kind::EndBeyond, Kind::BelowZero, Kind::RightSum, Kind::Untils]
            {
                compare_extreme(&plain, kind, 30, 72);
            }
            for kind in [Naming::Any, Naming::Inside, Naming::Wide] {
                compare_naming(&plain, kind, 300, 73);
            }
        }
    }
}
