//! A table as text.

use super::Table;
use std::fmt::{self, Display, Formatter};

impl Table {
    /// The front part of a state's line: its name and its labels, with the colon.
    fn front(&self, state: usize) -> String {
        let mask = self.model.masks[state];
        let has = |label: &usize| mask >> label & 1 == 1;
        let labels: Vec<&str> =
            (0..self.labels.len()).filter(has).map(|label| self.labels[label].as_str()).collect();
        match labels[..] {
            [] => format!("state {}:", self.states[state]),
            _ => format!("state {} ({}):", self.states[state], labels.join(" ")),
        }
    }

    /// The back part of a state's line: where it goes, with the weights.
    fn back(&self, state: usize) -> String {
        let row = self.states.iter().zip(self.model.weights[state]);
        let goes = row.filter(|(_, weight)| *weight > 0).map(|(name, weight)| format!("{name} {weight}"));
        goes.collect::<Vec<String>>().join(", ")
    }
}

/// The text of the table, the colons' right sides under one another. Parsing it gives the table again.
impl Display for Table {
    fn fmt(&self, f: &mut Formatter<'_>) -> fmt::Result {
        if self.model.version > 0 {
            writeln!(f, "version {}", self.model.version)?;
        }
        writeln!(f, "D {}", self.model.d)?;
        writeln!(f, "labels {}", self.labels.join(" "))?;
        let fronts: Vec<String> = (0..self.states.len()).map(|state| self.front(state)).collect();
        let width = fronts.iter().map(|front| front.chars().count()).max().unwrap_or(0);
        for (state, front) in fronts.iter().enumerate() {
            let line = format!("{front:width$} {}", self.back(state));
            // after the colon of an empty row there is nothing
            writeln!(f, "{}", line.trim_end())?;
        }
        Ok(())
    }
}
