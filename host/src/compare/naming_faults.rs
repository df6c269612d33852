//! Libraries with one fault of T-02 each: wrong variables that step, wrong denominators, row 10 by other numbers. Each must be
//! found by the comparisons of its area.

use super::faults::noticed;
use super::*;
use crate::inputs::extreme::Kind as Extreme;
use crate::inputs::naming::{end_of, namings, Kind, Naming};
use crate::second::meaning::{all_variables, answer, answer_by, named, needed, too_large_by, tuple_count};
use crate::second::meaning::{Stepping, Way};
use crate::second::sentence::{read_sentence, spelled, Node};

/// What a library does wrong about the variables that a path names.
#[derive(Clone, Copy, Debug, PartialEq, Eq)]
enum Fault {
    // Which variables step. The denominator goes with them.
    EveryVariableSteps,
    OneUnnamedSteps,
    FirstVariablesStep,
    NestedForgotten,
    SecondFormulaForgotten,
    WholeSentence,
    NothingIsVariable1,
    // The right variables step, over another denominator.
    OccurrencesCounted,
    NothingOverD,
    // Every variable steps, over the right denominator.
    EveryVariableOverTheNew,
    // Row 10.
    Row10OfTheBase,
}

/// The variables of the labels in a list, as often as they occur.
fn occurring(list: &[Node]) -> Vec<usize> {
    let variable = |node: &Node| match node {
        Node::Label { variable, .. } => Some(usize::from(*variable)),
        _ => None,
    };
    list.iter().filter_map(variable).collect()
}

/// The variables of the labels in a list, ascending, each once.
fn variables(list: &[Node]) -> Vec<usize> {
    let mut found = occurring(list);
    found.sort_unstable();
    found.dedup();
    found
}

/// The named variables and the first that is not.
fn one_more(sentence: &Sentence, path: &[Node]) -> Vec<usize> {
    let mut list = named(sentence, path);
    list.extend((1..=sentence.letters).find(|variable| !list.contains(variable)));
    list.sort_unstable();
    list
}

/// As many variables as are named, but the first ones.
fn first_variables(sentence: &Sentence, path: &[Node]) -> Vec<usize> {
    (1..=named(sentence, path).len()).collect()
}

/// The variables that a path names outside the paths inside it.
fn outside(_: &Sentence, path: &[Node]) -> Vec<usize> {
    let (mut list, mut rest) = (Vec::new(), &path[1..]);
    while let Some(&node) = rest.first() {
        list.push(node);
        rest = &rest[if node == Node::Probability { end_of(rest) } else { 1 }..];
    }
    variables(&list)
}

/// The variables of an until's first formula, or of a next's only one.
fn in_first(_: &Sentence, path: &[Node]) -> Vec<usize> {
    variables(&path[1..1 + end_of(&path[1..])])
}

/// The variables of the whole sentence.
fn in_sentence(sentence: &Sentence, _: &[Node]) -> Vec<usize> {
    variables(&sentence.nodes[..sentence.count])
}

/// The named variables; variable 1 where there is none.
fn at_least_one(sentence: &Sentence, path: &[Node]) -> Vec<usize> {
    let list = named(sentence, path);
    if list.is_empty() {
        vec![1]
    } else {
        list
    }
}

/// As many as there are occurrences, for row 10 to count.
fn as_often(_: &Sentence, path: &[Node]) -> Vec<usize> {
    occurring(path)
}

/// The second program with one fault of T-02.
struct Faulty(Fault);

impl Faulty {
    /// Which variables step.
    fn stepping(&self) -> Stepping {
        match self.0 {
            Fault::EveryVariableSteps => all_variables,
            Fault::OneUnnamedSteps => one_more,
            Fault::FirstVariablesStep => first_variables,
            Fault::NestedForgotten => outside,
            Fault::SecondFormulaForgotten => in_first,
            Fault::WholeSentence => in_sentence,
            Fault::NothingIsVariable1 => at_least_one,
            _ => named,
        }
    }

    /// Which variables row 10 counts.
    fn counted(&self) -> Stepping {
        match self.0 {
            Fault::OccurrencesCounted => as_often,
            Fault::Row10OfTheBase => all_variables,
            _ => self.stepping(),
        }
    }

    /// What a path's numerator and denominator are multiplied by.
    fn factors(&self, sentence: &Sentence, path: &Naming, d: u32) -> [u64; 2] {
        let power = |power: usize| u64::from(d).saturating_pow(power as u32);
        match self.0 {
            Fault::OccurrencesCounted => [1, power((path.occurrences - path.v()) * path.steps)],
            Fault::NothingOverD if path.v() == 0 => [1, power(path.steps)],
            Fault::EveryVariableOverTheNew => [power((sentence.letters - path.v()) * path.steps), 1],
            _ => [1, 1],
        }
    }

    /// The text in which each probability is multiplied by its factors; the given one where that cannot be asked.
    fn multiplied(&self, file: &[u8], text: &[u8], d: u32) -> Result<Vec<u8>, u8> {
        let sentence = read_sentence(text)?;
        let paths = namings(&sentence);
        let mut factors = paths.iter().map(|path| self.factors(&sentence, path, d));
        let mut list = Vec::new();
        for &node in &sentence.nodes[..sentence.count] {
            if node == Node::Probability {
                let two = factors.next().expect("a path for each probability");
                let [top, bottom] = two.map(|number| number.min(99_999) as u32);
                list.extend([Node::Product, Node::Constant { top, bottom }]);
            }
            list.push(node);
        }
        let other = spelled(&sentence.exists[..sentence.letters], &list);
        Ok(if answer(file, &other, Way::Table).is_ok() { other } else { text.to_vec() })
    }

    /// Refusals 2 to 11, row 10 by the numbers that the fault counts; gives what was read.
    fn refusals(&self, file: &[u8], text: &[u8]) -> Result<(Model, Sentence), u8> {
        answer_by(self.stepping(), file, text, Way::Table)?;
        let (model, sentence) = (second::read_model(file)?, read_sentence(text)?);
        if too_large_by(self.counted(), &sentence, model.d) {
            return Err(10);
        }
        Ok((model, sentence))
    }
}

impl Questions for Faulty {
    fn verdict(&self, file: &[u8], text: &[u8], work: &mut [u64]) -> Result<bool, u8> {
        let (model, sentence) = self.refusals(file, text)?;
        let area = needed(work, tuple_count(&model, &sentence))?;
        let text = self.multiplied(file, text, model.d)?;
        let holds = answer_by(self.stepping(), file, &text, Way::Table)?.holds;
        area.fill(0);
        Ok(holds)
    }

    fn numerator(
        &self,
        file: &[u8],
        text: &[u8],
        tuple: &[u8],
        path: usize,
        work: &mut [u64],
    ) -> Result<(u64, u64), u8> {
        let (model, sentence) = self.refusals(file, text)?;
        second::numerator(file, text, tuple, path, work)?;
        let at = tuple.iter().fold(0, |at, &member| at * usize::from(file[1]) + usize::from(member));
        let found = answer_by(self.stepping(), file, text, Way::Table)?;
        let [top, bottom] = self.factors(&sentence, &namings(&sentence)[path], model.d);
        let fractions = &found.paths[path];
        Ok((fractions.tops[at].saturating_mul(top), fractions.bottom.saturating_mul(bottom)))
    }
}

/// Stops unless a comparison finds a fault.
fn found(fault: Fault, comparison: impl FnOnce(&Faulty) -> Tally) {
    let lib = Faulty(fault);
    noticed(&format!("{fault:?}"), || comparison(&lib));
}

/// All the faults.
const ALL: [Fault; 11] = [
    Fault::EveryVariableSteps,
    Fault::OneUnnamedSteps,
    Fault::FirstVariablesStep,
    Fault::NestedForgotten,
    Fault::SecondFormulaForgotten,
    Fault::WholeSentence,
    Fault::NothingIsVariable1,
    Fault::OccurrencesCounted,
    Fault::NothingOverD,
    Fault::EveryVariableOverTheNew,
    Fault::Row10OfTheBase,
];

#[test]
fn each_fault_is_found_by_paths_of_some_variables() {
    for fault in ALL {
        for kind in [Kind::Any, Kind::Inside, Kind::Wide] {
            // In the other kinds nothing is refused by 10 whichever variables are counted, but for a few.
            if fault != Fault::Row10OfTheBase || kind == Kind::Wide {
                found(fault, |lib| compare_naming(lib, kind, 3_000, 101));
            }
        }
    }
}

#[test]
fn each_fault_is_found_by_random_numerators_and_verdicts() {
    for fault in ALL {
        found(fault, |lib| compare_numerator(lib, 5_000, 102));
        found(fault, |lib| compare_verdict(lib, 60_000, 103));
    }
}

#[test]
fn faults_of_row_10_are_found_on_both_sides_of_it() {
    use Fault::*;
    for fault in [EveryVariableSteps, OneUnnamedSteps, NestedForgotten, OccurrencesCounted, Row10OfTheBase] {
        found(fault, |lib| compare_row_10(lib, 104));
    }
    for fault in [EveryVariableSteps, Row10OfTheBase] {
        found(fault, |lib| compare_extreme(lib, Extreme::End, 400, 105));
    }
}

#[test]
fn faults_of_no_variable_are_found() {
    use Fault::*;
    for fault in [EveryVariableSteps, OneUnnamedSteps, WholeSentence, NothingIsVariable1, NothingOverD] {
        found(fault, |lib| compare_nothing(lib, 106));
    }
}

#[test]
fn faults_are_found_by_the_examples() {
    for fault in ALL {
        found(fault, |lib| {
            compare_naming_examples(lib);
            Tally::new("examples")
        });
    }
}
