//! Libraries with one fault of the versions each: wrong fillings, versions that are lost or not refused. Each must be
//! found by the comparison of its area.

use super::faults::noticed;
use super::*;
use crate::inputs::model::EMPTY;
use crate::second::meaning::{answer_on_rows, needed, tuple_count, Way};
use crate::second::merge::merge_rows;
use crate::second::model::mend;

/// What a library does wrong about versions.
#[derive(Clone, Copy, Debug, PartialEq, Eq)]
enum Fault {
    // The rows that verdict, numerator and merge take.
    FilledToStateZero,
    FilledToTheNextState,
    NotFilled,
    OnlyFirstFilled,
    FilledWithOne,
    // Merging.
    MergedInVersion0,
    MergedRowsLeftEmpty,
    EmptyRowGoesWithAny,
    // Reading and writing.
    EmptyRowInVersion0,
    EmptyRowRefused,
    AllEmptyRefused,
    EmptyByItsSum,
    VersionAbove1,
    VersionLost,
    FilledWhenRead,
    FilledWhenWritten,
    VersionInOneByte,
}

/// The second program with one fault of the versions.
struct Faulty(Fault);

impl Faulty {
    /// What is read from a file.
    fn read(&self, file: &[u8]) -> Result<Model, u8> {
        let read = second::read_model(file);
        match (self.0, &read) {
            (Fault::EmptyRowInVersion0, Err(5)) => in_version_1(file, 5),
            (Fault::VersionAbove1, Err(4)) => in_version_1(file, 4),
            (Fault::EmptyByItsSum, Err(5)) => emptied(file),
            (Fault::EmptyRowRefused, Ok(model)) if has_empty(model) => Err(5),
            (Fault::AllEmptyRefused, Ok(model)) if model.weights == [EMPTY; 32] => Err(5),
            _ => read,
        }
    }

    /// The rows that verdict, numerator and merge take for those of a file.
    fn rows(&self, file: &[u8]) -> Result<Model, u8> {
        let model = self.read(file)?;
        let mut empty: Vec<usize> = (0..model.n as usize).filter(|&s| model.row_is_empty(s)).collect();
        let (mut filled, next) = (model.clone(), |s: usize| (s + 1) % model.n as usize);
        if self.0 == Fault::OnlyFirstFilled {
            empty.truncate(1);
        }
        for s in empty {
            match self.0 {
                Fault::FilledToStateZero => filled.weights[s][0] = model.d as u16,
                Fault::FilledToTheNextState => filled.weights[s][next(s)] = model.d as u16,
                Fault::NotFilled => {}
                Fault::FilledWithOne => filled.weights[s][s] = 1,
                _ => filled.weights[s][s] = model.d as u16,
            }
        }
        Ok(filled)
    }

    /// The rows that merge takes, with those of a group's first written row for empty ones.
    fn lenient_rows(&self, file: &[u8], grouping: &[u8]) -> Result<Model, u8> {
        let model = second::read_model(file)?;
        let mut filled = model.filled();
        for (s, group) in grouping.iter().enumerate().take(model.n as usize) {
            let written = |t: &usize| grouping[*t] == *group && !model.row_is_empty(*t);
            let other = (0..grouping.len().min(model.n as usize)).find(written);
            if let (true, Some(t)) = (model.row_is_empty(s), other) {
                filled.weights[s] = model.weights[t];
            }
        }
        Ok(filled)
    }
}

/// Whether some state below N has an empty row.
fn has_empty(model: &Model) -> bool {
    (0..model.n as usize).any(|s| model.row_is_empty(s))
}

/// What a file would be in version 1; the given refusal if that is refused too.
fn in_version_1(file: &[u8], refusal: u8) -> Result<Model, u8> {
    let version = file[3].into();
    let mut file = file.to_vec();
    file[3] = 1;
    mend(&mut file);
    second::read_model(&file).map(|model| Model { version, ..model }).map_err(|_| refusal)
}

/// What a file of version 1 would be if rows that add up to 65,536 were empty.
fn emptied(file: &[u8]) -> Result<Model, u8> {
    let mut file = file.to_vec();
    for s in 0..usize::from(file[1]) {
        let row = &mut file[second::model::weight_place(s, 0)..][..64];
        let weights = row.chunks(2).map(|two| u16::from_le_bytes([two[0], two[1]]));
        if weights.fold(0, u16::wrapping_add) == 0 {
            row.fill(0);
        }
    }
    mend(&mut file);
    second::read_model(&file)
}

impl Models for Faulty {
    fn read_model(&self, file: &[u8]) -> Result<Model, u8> {
        let model = self.read(file)?;
        Ok(match self.0 {
            Fault::VersionLost => Model { version: 0, ..model },
            Fault::FilledWhenRead => model.filled(),
            _ => model,
        })
    }

    fn write_model(&self, model: &Model, out: &mut [u8]) -> Result<usize, u8> {
        match self.0 {
            Fault::FilledWhenWritten if second::write_model(model, &mut [0; 3_072]).is_ok() => {
                second::write_model(&model.filled(), out)
            }
            Fault::VersionInOneByte => {
                second::write_model(&Model { version: model.version % 256, ..model.clone() }, out)
            }
            _ => second::write_model(model, out),
        }
    }
}

impl Questions for Faulty {
    fn verdict(&self, file: &[u8], text: &[u8], work: &mut [u64]) -> Result<bool, u8> {
        let model = self.rows(file)?;
        let holds = answer_on_rows(model.clone(), text, Way::Table)?.holds;
        let tuples = tuple_count(&model, &second::read_sentence(text)?);
        needed(work, tuples)?.fill(0);
        Ok(holds)
    }

    fn numerator(
        &self,
        file: &[u8],
        text: &[u8],
        tuple: &[u8],
        path: usize,
        work: &mut [u64],
    ) -> Result<(u64, u64), u8> {
        let right = second::numerator(file, text, tuple, path, work)?;
        let model = self.rows(file)?;
        let at = tuple.iter().fold(0, |at, &member| at * model.n as usize + usize::from(member));
        let found = answer_on_rows(model, text, Way::Table)?;
        Ok((found.paths[path].tops[at], right.1))
    }
}

impl Merges for Faulty {
    fn merge(&self, file: &[u8], grouping: &[u8], out: &mut [u8]) -> Result<usize, u8> {
        let mut model = match self.0 {
            Fault::EmptyRowGoesWithAny => self.lenient_rows(file, grouping)?,
            _ => self.rows(file)?,
        };
        if self.0 == Fault::MergedInVersion0 {
            model.version = 0;
        }
        let answer = merge_rows(&model, grouping, out)?;
        if self.0 == Fault::MergedRowsLeftEmpty {
            // A group of halted states only is written as their rows stand.
            let given = second::read_model(file)?;
            let mut small = second::read_model(&out[..answer])?;
            for g in 0..small.n as usize {
                let mut members = (0..grouping.len()).filter(|&s| usize::from(grouping[s]) == g);
                if members.all(|s| given.row_is_empty(s)) {
                    small.weights[g] = EMPTY;
                }
            }
            return second::write_model(&small, out);
        }
        Ok(answer)
    }
}

/// Stops unless a comparison finds a fault.
fn found(fault: Fault, comparison: impl FnOnce(&Faulty) -> Tally) {
    let lib = Faulty(fault);
    noticed(&format!("{fault:?}"), || comparison(&lib));
}

#[test]
fn wrong_rows_are_found_by_verdicts_numerators_and_merges() {
    use Fault::*;
    for fault in [FilledToStateZero, FilledToTheNextState, NotFilled, OnlyFirstFilled, FilledWithOne] {
        found(fault, |lib| compare_verdict(lib, 5_000, 91));
        found(fault, |lib| compare_numerator(lib, 500, 92));
        found(fault, |lib| compare_merge(lib, 2_000, 93));
        found(fault, |lib| compare_kept(lib, 2_000, 94));
        found(fault, |lib| compare_filled(lib, 200, 95));
    }
}

#[test]
fn wrong_merges_are_found() {
    use Fault::*;
    for fault in [MergedInVersion0, MergedRowsLeftEmpty, EmptyRowGoesWithAny] {
        found(fault, |lib| compare_merge(lib, 2_000, 93));
    }
    for fault in [MergedInVersion0, MergedRowsLeftEmpty] {
        found(fault, |lib| compare_filled(lib, 200, 95));
    }
}

#[test]
fn wrong_readings_and_writings_are_found() {
    use Fault::*;
    for fault in [
        EmptyRowInVersion0,
        EmptyRowRefused,
        AllEmptyRefused,
        EmptyByItsSum,
        VersionAbove1,
        VersionLost,
        FilledWhenRead,
        FilledWhenWritten,
    ] {
        found(fault, |lib| compare_model_reader(lib, 5_000, 96));
    }
    for fault in [VersionInOneByte, VersionLost, FilledWhenRead, FilledWhenWritten] {
        found(fault, |lib| compare_model_writer(lib, 5_000, 97));
    }
    for fault in [EmptyRowInVersion0, EmptyRowRefused, AllEmptyRefused, EmptyByItsSum, VersionAbove1] {
        found(fault, |lib| compare_verdict(lib, 20_000, 98));
        found(fault, |lib| compare_merge(lib, 20_000, 99));
    }
}
