//! What the answered cases of an area had, so that a generator that stops reaching something is noticed.

use super::naming::Named;
use crate::inputs::question::Pair;
use crate::second::{read_model, read_sentence, Model, Node};
use std::fmt::{self, Formatter};

/// Counts of answered cases that had something.
#[derive(Clone, Debug, Default, PartialEq, Eq)]
pub struct Reach {
    /// Pairs by the number of letters; place 0 stays 0.
    pub letters: [u64; 5],
    /// Pairs by the number of states, less 1.
    pub states: [u64; 32],
    /// Pairs of exactly 1,024 tuples.
    pub tuples_1024: u64,
    /// Pairs of 625 to 1,000 tuples.
    pub tuples_near: u64,
    /// Pairs with a window that ends at 60.
    pub window_60: u64,
    /// Pairs of 60 nodes and more.
    pub nodes_60: u64,
    /// Pairs with an expression that is below zero at some tuple.
    pub below_zero: u64,
    /// Numerators of exactly 2^62.
    pub top_at_end: u64,
    /// Numerators over a denominator of exactly 2^62.
    pub bottom_at_end: u64,
    /// Numerators that are neither 0 nor the denominator.
    pub between: u64,
    /// Pairs asked at every tuple of every path.
    pub every: u64,
    /// Those of exactly 1,024 tuples.
    pub every_full: u64,
    /// Models of version 0.
    pub version_0: u64,
    /// Models of version 1: without an empty row, with one, with several, with no other row.
    pub version_1: [u64; 4],
    /// Merges with an empty row and a written one in a group: those accepted, and those refused by 13.
    pub mixed: [u64; 2],
    /// What the paths named.
    pub named: Named,
}

impl Reach {
    /// Counts a pair that is answered.
    pub(super) fn count(&mut self, pair: &Pair) {
        let states = usize::from(pair.file[1]);
        let sentence = read_sentence(&pair.text).expect("a pair that is answered");
        let tuples = states.pow(sentence.letters as u32);
        self.letters[sentence.letters] += 1;
        self.states[states - 1] += 1;
        self.tuples_1024 += u64::from(tuples == 1_024);
        self.tuples_near += u64::from((625..=1_000).contains(&tuples));
        let long = |node: &Node| matches!(node, Node::Until { to: 60, .. });
        self.window_60 += u64::from(sentence.nodes[..sentence.count].iter().any(long));
        self.nodes_60 += u64::from(sentence.count >= 60);
        self.model(&read_model(&pair.file).expect("a pair that is answered"));
        self.named.count(&sentence);
    }

    /// Counts a model by its version and its empty rows.
    pub(super) fn model(&mut self, model: &Model) {
        let states = model.n as usize;
        let empty = (0..states).filter(|&state| model.row_is_empty(state)).count();
        let place = match empty {
            0 => 0,
            _ if empty == states => 3,
            1 => 1,
            _ => 2,
        };
        match model.version {
            0 => self.version_0 += 1,
            _ => self.version_1[place] += 1,
        }
    }

    /// Counts a merge that is answered or refused by 13.
    pub(super) fn merge(&mut self, model: &Model, grouping: &[u8], answered: bool) {
        if answered {
            self.model(model);
        }
        let has = |group: u8, empty: bool| {
            let mut members = (0..grouping.len()).filter(|&state| grouping[state] == group);
            members.any(|state| model.row_is_empty(state) == empty)
        };
        if grouping.iter().any(|&group| has(group, true) && has(group, false)) {
            self.mixed[usize::from(!answered)] += 1;
        }
    }

    /// Tells how many models of each version were counted, if there were any.
    pub(super) fn tell_versions(&self, f: &mut Formatter<'_>) -> fmt::Result {
        let [none, one, several, all] = self.version_1;
        if self.version_0 + none + one + several + all == 0 {
            return Ok(());
        }
        write!(f, "; version 0: {}, version 1: {none} without an empty row, ", self.version_0)?;
        write!(f, "{one} with one, {several} with several, {all} with no other")
    }

    /// Stops unless there were at least so many models of version 0, and of version 1 with no empty row, with one, with
    /// several and with no other.
    pub fn require_versions(&self, least: u64) {
        assert!(self.version_0 >= least, "too few models of version 0: {self:?}");
        assert!(self.version_1.iter().all(|&count| count >= least), "too few models of version 1: {self:?}");
    }

    /// Counts a fraction that was given.
    pub(super) fn fraction(&mut self, top: u64, bottom: u64) {
        self.top_at_end += u64::from(top == 1 << 62);
        self.bottom_at_end += u64::from(bottom == 1 << 62);
        self.between += u64::from(top > 0 && top < bottom);
    }

    /// Adds the counts of another.
    pub fn add(&mut self, other: &Reach) {
        self.letters.iter_mut().zip(other.letters).for_each(|(sum, count)| *sum += count);
        self.states.iter_mut().zip(other.states).for_each(|(sum, count)| *sum += count);
        self.tuples_1024 += other.tuples_1024;
        self.tuples_near += other.tuples_near;
        self.window_60 += other.window_60;
        self.nodes_60 += other.nodes_60;
        self.below_zero += other.below_zero;
        self.top_at_end += other.top_at_end;
        self.bottom_at_end += other.bottom_at_end;
        self.between += other.between;
        self.every += other.every;
        self.every_full += other.every_full;
        self.version_0 += other.version_0;
        self.version_1.iter_mut().zip(other.version_1).for_each(|(sum, count)| *sum += count);
        self.mixed.iter_mut().zip(other.mixed).for_each(|(sum, count)| *sum += count);
        self.named.add(&other.named);
    }
}
