//! A model as a person types it: states and labels by name.

mod reading;
mod showing;

use crate::{Model, LABELS, STATES};
use std::error::Error;
use std::fmt::{self, Display, Formatter};

/// A model with a name for each state and each label.
///
/// A table is a text of lines. Each begins with `version`, `D`, `labels` or `state`; empty lines and what follows a
/// `#` are skipped. A state's line has its name, its labels in brackets, a colon, and each state that it goes to with
/// the weight. The first label is letter `a` of a sentence, the next `b`; the first state is number 0. Without a
/// version the table is of version 0; in one of version 1 a halted state goes nowhere, and has an empty row.
///
/// ```
/// use twolsken::Table;
///
/// let table: Table = "
///     D 10                                 # the weights of each state add up to 10
///     labels open lost                     # `a` and `b` in a sentence
///     state sealed (open): sealed 6, moved 4
///     state moved:         sealed 9, gone 1
///     state gone (lost):   gone 10
/// "
/// .parse()?;
/// assert_eq!(table.states, ["sealed", "moved", "gone"]);
/// assert_eq!((table.model.n, table.model.a, table.model.d), (3, 2, 10));
/// assert_eq!(table.model.weights[1][..3], [9, 0, 1]);
///
/// let error = "D 10\nlabels a\nstate s0: s1 10".parse::<Table>().unwrap_err();
/// assert_eq!(error.to_string(), "line 3, column 11: no state has the name `s1`");
///
/// let halted: Table = "version 1\nD 10\nlabels lost\nstate gone (lost):".parse()?;
/// assert_eq!((halted.model.version, halted.model.weights[0]), (1, [0; 32]));
/// # Ok::<(), twolsken::TableError>(())
/// ```
#[derive(Clone, Debug, PartialEq, Eq)]
pub struct Table {
    /// The model.
    pub model: Model,
    /// The name of each state.
    pub states: Vec<String>,
    /// The name of each label.
    pub labels: Vec<String>,
}

impl Table {
    /// The table of a model that was read: its states are named `s0`, `s1` and on, its labels `a`, `b` and on,
    /// as a sentence names them.
    ///
    /// ```
    /// use twolsken::{read_model, Model, Table};
    ///
    /// let mut model = Model { n: 2, a: 1, d: 4, ..Model::empty() };
    /// model.masks[1] = 1;
    /// model.weights[0][..2].copy_from_slice(&[3, 1]);
    /// model.weights[1][..2].copy_from_slice(&[0, 4]);
    /// let shown = Table::of(model.clone()).to_string();
    /// assert_eq!(shown, "D 4\nlabels a\nstate s0:     s0 3, s1 1\nstate s1 (a): s1 4\n");
    /// assert_eq!(shown.parse::<Table>()?.model, model);
    /// # Ok::<(), twolsken::TableError>(())
    /// ```
    pub fn of(model: Model) -> Table {
        let states = (0..model.n as usize).take(STATES).map(|state| format!("s{state}")).collect();
        let labels = ('a'..).take((model.a as usize).min(LABELS)).map(String::from).collect();
        Table { model, states, labels }
    }
}

/// What is wrong with a table, and where.
#[derive(Clone, Debug, PartialEq, Eq)]
pub struct TableError {
    /// The line, counted from 1.
    pub line: usize,
    /// The column, counted from 1 in characters.
    pub column: usize,
    /// What is wrong there.
    pub problem: String,
}

impl Display for TableError {
    fn fmt(&self, f: &mut Formatter<'_>) -> fmt::Result {
        write!(f, "line {}, column {}: {}", self.line, self.column, self.problem)
    }
}

impl Error for TableError {}
