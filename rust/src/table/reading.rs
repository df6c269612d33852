//! Reading a table. The line of the version is read first, since it says whether a state may go nowhere; then the
//! other lines; then what they say of one another, since a state may go to one that is named further down.

use super::{Table, TableError};
use crate::{Model, GREATEST_D, LABELS, STATES};
use std::ops::RangeInclusive;
use std::str::FromStr;

/// The word that the line of the version begins with.
const VERSION: &str = "version";

/// The signs of a line: each is a word of its own, and ends the one before it.
const SIGNS: [char; 4] = [':', ',', '(', ')'];

/// A word or a sign of a line, and where it begins.
#[derive(Clone, Copy)]
struct Word<'a> {
    text: &'a str,
    line: usize,
    column: usize,
}

impl<'a> Word<'a> {
    /// The error that a problem is at this place.
    fn wrong<T>(self, problem: impl Into<String>) -> Result<T, TableError> {
        Err(TableError { line: self.line, column: self.column, problem: problem.into() })
    }

    /// The word as a name of what is said.
    fn name(self, what: &str) -> Result<&'a str, TableError> {
        let part = |c: char| c.is_ascii_alphanumeric() || c == '_' || c == '-';
        if self.text.starts_with(|c: char| c.is_ascii_alphabetic()) && self.text.chars().all(part) {
            return Ok(self.text);
        }
        self.wrong(format!(
            "{what} is expected here, a letter and then letters, digits, `-` or `_`; not {}",
            self.shown()
        ))
    }

    /// The word as a number in a range.
    fn number(self, what: &str, least: u32, most: u32) -> Result<u32, TableError> {
        let digits = self.text.starts_with(|c: char| c.is_ascii_digit());
        match self.text.parse::<u32>() {
            Ok(number) if digits && (least..=most).contains(&number) => Ok(number),
            _ => self.wrong(format!("{what} is a number from {least} to {most}, not {}", self.shown())),
        }
    }

    /// The word for a message.
    fn shown(self) -> String {
        if self.text.is_empty() {
            return "the end of the line".to_string();
        }
        format!("`{}`", self.text)
    }
}

/// The words and signs of a line that are not read yet, and the place where the line ends.
struct Line<'a> {
    words: std::vec::IntoIter<Word<'a>>,
    end: Word<'a>,
}

impl<'a> Line<'a> {
    /// The words and signs of a line, without its comment.
    fn of(text: &'a str, line: usize) -> Line<'a> {
        let mut rest = text.split('#').next().unwrap_or("").trim_end();
        let mut words = Vec::new();
        let mut column = 1;
        while !rest.is_empty() {
            let (blanks, from) = rest.split_at(rest.len() - rest.trim_start().len());
            column += blanks.chars().count();
            let length = match from.starts_with(SIGNS) {
                true => 1,
                false => from.find(|c: char| c.is_whitespace() || SIGNS.contains(&c)).unwrap_or(from.len()),
            };
            let (word, after) = from.split_at(length);
            words.push(Word { text: word, line, column });
            column += word.chars().count();
            rest = after;
        }
        Line { words: words.into_iter(), end: Word { text: "", line, column } }
    }

    /// The next word or sign; at the end of the line one without text.
    fn next(&mut self) -> Word<'a> {
        self.words.next().unwrap_or(self.end)
    }

    /// Whether the next word is the given sign, which is then passed.
    fn passes(&mut self, sign: &str) -> bool {
        let found = self.begins(sign);
        if found {
            self.words.next();
        }
        found
    }

    /// Whether the next word is the given one.
    fn begins(&self, word: &str) -> bool {
        self.words.as_slice().first().is_some_and(|first| first.text == word)
    }

    /// Whether the line is at its end.
    fn done(&self) -> bool {
        self.words.as_slice().is_empty()
    }

    /// The names of labels in brackets, if a bracket is next.
    fn bracketed(&mut self) -> Result<Vec<Word<'a>>, TableError> {
        let mut labels = Vec::new();
        if self.passes("(") {
            while !self.passes(")") {
                let word = self.next();
                word.name("a label's name or `)`")?;
                labels.push(word);
            }
        }
        Ok(labels)
    }

    /// The states that are gone to, each with its weight, to the end of the line.
    fn goes(&mut self) -> Result<Vec<(Word<'a>, u16)>, TableError> {
        let mut goes = Vec::new();
        loop {
            let target = self.next();
            target.name("the name of a state that it goes to")?;
            let weight = self.next().number("a weight", 0, GREATEST_D)?;
            goes.push((target, weight as u16));
            if self.done() {
                return Ok(goes);
            }
            if !self.passes(",") {
                return self.next().wrong("a comma is expected between two states that it goes to");
            }
        }
    }
}

/// A state's line: its name, its labels, where it goes.
struct State<'a> {
    name: Word<'a>,
    labels: Vec<Word<'a>>,
    goes: Vec<(Word<'a>, u16)>,
}

/// The lines that were read.
#[derive(Default)]
struct Lines<'a> {
    version: Option<u32>,
    d: Option<u32>,
    labels: Vec<Word<'a>>,
    states: Vec<State<'a>>,
}

/// Reads a line that gives one number, which is in a range, and may be there once.
fn single<'a>(
    number: &mut Option<u32>,
    what: &str,
    range: RangeInclusive<u32>,
    first: Word<'a>,
    mut line: Line<'a>,
) -> Result<(), TableError> {
    if number.is_some() {
        return first.wrong(format!("{what} was given before"));
    }
    *number = Some(line.next().number(what, *range.start(), *range.end())?);
    match line.done() {
        true => Ok(()),
        false => line.next().wrong(format!("nothing follows the number of {what} in its line")),
    }
}

/// The place of a name in a list, if it has it.
fn place_of<'a>(mut list: impl Iterator<Item = Word<'a>>, name: &str) -> Option<usize> {
    list.position(|word| word.text == name)
}

impl<'a> Lines<'a> {
    /// Reads one line.
    fn read(&mut self, mut line: Line<'a>) -> Result<(), TableError> {
        let first = line.next();
        match first.text {
            "" => Ok(()),
            VERSION => single(&mut self.version, "the version", 0..=1, first, line),
            "D" => single(&mut self.d, "D", 1..=GREATEST_D, first, line),
            "labels" => self.all_labels(first, line),
            "state" => self.state(line),
            _ => first.wrong(format!(
                "a line begins with `version`, `D`, `labels` or `state`, not with {}",
                first.shown()
            )),
        }
    }

    /// Whether a row may be empty.
    fn empty_rows(&self) -> bool {
        self.version == Some(1)
    }

    /// Reads the line of labels.
    fn all_labels(&mut self, first: Word<'a>, mut line: Line<'a>) -> Result<(), TableError> {
        if !self.labels.is_empty() {
            return first.wrong("the labels were given before");
        }
        loop {
            let word = line.next();
            let name = word.name("a label's name")?;
            if place_of(self.labels.iter().copied(), name).is_some() {
                return word.wrong(format!("the label `{name}` is there twice"));
            }
            if self.labels.len() == LABELS {
                return word.wrong(format!("there are at most {LABELS} labels"));
            }
            let letter = char::from(b'a' + self.labels.len() as u8).to_string();
            if name != letter && name.len() == 1 && ("a"..="p").contains(&name) {
                return word.wrong(format!("a sentence calls this label `{letter}`: `{name}` would mislead"));
            }
            self.labels.push(word);
            if line.done() {
                return Ok(());
            }
        }
    }

    /// Reads a state's line.
    fn state(&mut self, mut line: Line<'a>) -> Result<(), TableError> {
        let name = line.next();
        name.name("a state's name")?;
        if let Some(other) = self.states.iter().find(|state| state.name.text == name.text) {
            let line = other.name.line;
            return name.wrong(format!("the state `{}` is in line {line} already", name.text));
        }
        if self.states.len() == STATES {
            return name.wrong(format!("there are at most {STATES} states"));
        }
        let labels = line.bracketed()?;
        if !line.passes(":") {
            let word = line.next();
            return word.wrong(format!(
                "a colon is expected here, and then where the state goes; not {}",
                word.shown()
            ));
        }
        // of a halted state nothing is said after the colon
        let goes = if self.empty_rows() && line.done() { Vec::new() } else { line.goes()? };
        self.states.push(State { name, labels, goes });
        Ok(())
    }

    /// The label mask of a state.
    fn mask(&self, state: &State) -> Result<u16, TableError> {
        let mut mask = 0;
        for label in &state.labels {
            let Some(place) = place_of(self.labels.iter().copied(), label.text) else {
                return label.wrong(format!("no label has the name `{}`", label.text));
            };
            mask |= 1 << place;
        }
        Ok(mask)
    }

    /// The weights of a state.
    fn row(&self, state: &State, d: u32) -> Result<[u16; STATES], TableError> {
        let mut row = [0; STATES];
        let mut met = [false; STATES];
        for (target, weight) in &state.goes {
            let Some(place) = place_of(self.states.iter().map(|state| state.name), target.text) else {
                return target.wrong(format!("no state has the name `{}`", target.text));
            };
            if std::mem::replace(&mut met[place], true) {
                return target.wrong(format!("`{}` is there twice: add the weights up", target.text));
            }
            row[place] = *weight;
        }
        let sum: u32 = row.iter().map(|&weight| u32::from(weight)).sum();
        let empty = self.empty_rows() && sum == 0;
        if sum != d && !empty {
            let name = state.name.text;
            return state.name.wrong(format!("the weights of `{name}` add up to {sum}, and D is {d}"));
        }
        Ok(row)
    }

    /// The table of the lines; `end` is the place where they end.
    fn table(&self, end: Word) -> Result<Table, TableError> {
        let Some(d) = self.d else {
            return end.wrong("the table ends, and no line has given D");
        };
        if self.labels.is_empty() {
            return end.wrong("the table ends, and no line has given the labels");
        }
        if self.states.is_empty() {
            return end.wrong("the table ends, and no line has given a state");
        }
        let mut model = Model::empty();
        (model.n, model.a, model.d) = (self.states.len() as u32, self.labels.len() as u32, d);
        model.version = self.version.unwrap_or(0);
        for (place, state) in self.states.iter().enumerate() {
            model.masks[place] = self.mask(state)?;
            model.weights[place] = self.row(state, d)?;
        }
        let names = |words: Vec<Word>| words.into_iter().map(|word| word.text.to_string()).collect();
        let states = names(self.states.iter().map(|state| state.name).collect());
        Ok(Table { model, states, labels: names(self.labels.clone()) })
    }
}

impl FromStr for Table {
    type Err = TableError;

    /// Reads a table. An error names the line and the column.
    fn from_str(text: &str) -> Result<Table, TableError> {
        // some editors put a mark of their own before the text
        let text = text.strip_prefix('\u{feff}').unwrap_or(text);
        let all = text.lines().zip(1..).map(|(line, number)| Line::of(line, number));
        let (versions, others): (Vec<Line>, Vec<Line>) = all.partition(|line| line.begins(VERSION));
        let end = Word { text: "", line: versions.len() + others.len() + 1, column: 1 };
        let mut lines = Lines::default();
        versions.into_iter().chain(others).try_for_each(|line| lines.read(line))?;
        lines.table(end)
    }
}
