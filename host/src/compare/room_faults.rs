//! Libraries with one fault of T-07 each: row 1 too early, by another length, with other numbers left in the work area. Each must
//! be found by the comparisons of its area, and by random verdicts and numerators.

use super::faults::noticed;
use super::*;
use crate::inputs::question::Pair;
use crate::second::meaning::{ENOUGH, PER_TUPLE};

/// What a library does wrong about work areas.
#[derive(Clone, Copy, Debug, PartialEq, Eq)]
enum Fault {
    // When row 1 is tested.
    First8192,
    Before(u8),
    // How long an area it asks for.
    Needs8192,
    Needs7PerTuple,
    Needs8PerState,
    NeedsOneLess,
    NeedsOneMore,
    // How many numbers an answer leaves zero.
    Clears8192,
    ClearsOnePerTuple,
    ClearsOneLess,
    ClearsOneMore,
    // Numbers that a refusal leaves zero.
    ClearsBefore1,
    ClearsBefore15,
}

/// The call that has a fault.
#[derive(Clone, Copy, Debug, PartialEq, Eq)]
enum Call {
    Verdict,
    Numerator,
}

/// The second program with one fault of T-07 in one call.
struct Faulty(Fault, Call);

impl Faulty {
    /// The first of the rows that are tested after row 1.
    fn next_row(&self) -> u8 {
        match self.0 {
            Fault::First8192 => 2,
            Fault::Before(row) => row,
            _ => 16,
        }
    }

    /// The length that it asks for, where 8 × T and N are given.
    fn needs(&self, room: usize, states: usize) -> usize {
        match self.0 {
            Fault::First8192 | Fault::Needs8192 => ENOUGH,
            Fault::Needs7PerTuple => room / PER_TUPLE * 7,
            Fault::Needs8PerState => PER_TUPLE * states,
            Fault::NeedsOneLess => room - 1,
            Fault::NeedsOneMore => room + 1,
            _ => room,
        }
    }

    /// How many numbers it leaves zero.
    fn clears(&self, refusal: Option<u8>, room: usize) -> usize {
        match (self.0, refusal) {
            (Fault::Clears8192, None) => ENOUGH,
            (Fault::ClearsOnePerTuple, None) => room / PER_TUPLE,
            (Fault::ClearsOneLess, None) => room - 1,
            (Fault::ClearsOneMore, None) => room + 1,
            (Fault::ClearsBefore1, Some(1)) | (Fault::ClearsBefore15, Some(15)) => room,
            (_, refusal) => refusal.map_or(room, |_| 0),
        }
    }

    /// A call by what the second program answers where there is room.
    fn call<T>(&self, (file, text): (&[u8], &[u8]), work: &mut [u64], right: Result<T, u8>) -> Result<T, u8> {
        let pair = Pair { file: file.to_vec(), text: text.to_vec() };
        let (room, states) = (pair.room().unwrap_or(0), file.get(1).copied().unwrap_or(0));
        let tested = right.as_ref().err().is_none_or(|&number| number >= self.next_row());
        let short = tested && work.len() < self.needs(room, states.into());
        let answer = if short { Err(1) } else { right };
        let cleared = self.clears(answer.as_ref().err().copied(), room).min(work.len());
        work[..cleared].fill(0);
        answer
    }
}

impl Questions for Faulty {
    fn verdict(&self, file: &[u8], text: &[u8], work: &mut [u64]) -> Result<bool, u8> {
        if self.1 != Call::Verdict {
            return second::verdict(file, text, work);
        }
        self.call((file, text), work, second::verdict(file, text, &mut [0; ENOUGH]))
    }

    fn numerator(
        &self,
        file: &[u8],
        text: &[u8],
        tuple: &[u8],
        path: usize,
        work: &mut [u64],
    ) -> Result<(u64, u64), u8> {
        if self.1 != Call::Numerator {
            return second::numerator(file, text, tuple, path, work);
        }
        self.call((file, text), work, second::numerator(file, text, tuple, path, &mut [0; ENOUGH]))
    }
}

/// Stops unless a comparison finds a fault in a call, with a report of that call.
fn found_in(call: Call, fault: Fault, comparison: impl FnOnce(&Faulty) -> Tally) {
    let report = noticed(&format!("{fault:?} in {call:?}"), || comparison(&Faulty(fault, call)));
    assert!(report.starts_with(&format!("{call:?}").to_lowercase()), "{fault:?} in {call:?}: {report}");
}

/// Stops unless a comparison finds a fault in either call.
fn found(fault: Fault, comparison: impl Fn(&Faulty) -> Tally) {
    found_in(Call::Verdict, fault, &comparison);
    found_in(Call::Numerator, fault, &comparison);
}

/// The faults by which row 1 is tested before a row of both calls.
fn early() -> impl Iterator<Item = Fault> {
    (2..=11).map(Fault::Before).chain([Fault::First8192])
}

/// The faults of lengths, needed or left zero.
const LENGTHS: [Fault; 10] = [
    Fault::Needs8192,
    Fault::Needs7PerTuple,
    Fault::Needs8PerState,
    Fault::NeedsOneLess,
    Fault::NeedsOneMore,
    Fault::Clears8192,
    Fault::ClearsOnePerTuple,
    Fault::ClearsOneLess,
    Fault::ClearsOneMore,
    Fault::ClearsBefore1,
];

#[test]
fn row_1_too_early_is_found_by_calls_that_each_other_row_refuses() {
    for fault in early() {
        found(fault, |lib| compare_room_last(lib, 151));
        found(fault, |lib| compare_rooms(lib, 2_000, 152));
    }
}

#[test]
fn other_lengths_are_found_at_every_number_of_tuples() {
    for fault in LENGTHS {
        found(fault, |lib| compare_every_room(lib, 153));
        found(fault, |lib| compare_rooms(lib, 2_000, 154));
    }
}

#[test]
fn lengths_that_are_too_great_are_found_by_sentences_of_64_nodes() {
    use Fault::*;
    for fault in [First8192, Needs8192, NeedsOneMore, ClearsOnePerTuple, ClearsOneLess, ClearsBefore1] {
        found(fault, |lib| compare_just_room(lib, 0, 155));
    }
}

#[test]
fn each_fault_is_found_by_random_verdicts_and_numerators() {
    for fault in early().chain(LENGTHS) {
        found_in(Call::Verdict, fault, |lib| compare_verdict(lib, 20_000, 156));
        found_in(Call::Numerator, fault, |lib| compare_numerator(lib, 20_000, 157));
    }
}

#[test]
fn row_1_before_row_15_is_found() {
    for fault in [Fault::Before(15), Fault::ClearsBefore15] {
        found_in(Call::Numerator, fault, |lib| compare_room_last(lib, 158));
        found_in(Call::Numerator, fault, |lib| compare_rooms(lib, 200, 159));
        found_in(Call::Numerator, fault, |lib| compare_row_15(lib, 200, 160));
        found_in(Call::Numerator, fault, |lib| compare_numerator(lib, 2_000, 161));
    }
}
