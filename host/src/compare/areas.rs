//! Lent work areas: what lies in them and around them, and what a call leaves of it.

use crate::inputs::question::Pair;
use crate::inputs::Rng;

/// The numbers on either side of a work area.
const AROUND: usize = 64;

/// A work area in the middle of a larger buffer, with anything in it and around it.
pub(super) struct WorkArea {
    before: Vec<u64>,
    now: Vec<u64>,
}

impl WorkArea {
    /// A work area of so many numbers.
    pub(super) fn of(rng: &mut Rng, room: usize) -> WorkArea {
        let before: Vec<u64> = (0..room + 2 * AROUND).map(|_| rng.bits()).collect();
        WorkArea { now: before.clone(), before }
    }

    /// What is lent to a call.
    pub(super) fn lent(&mut self) -> &mut [u64] {
        let end = self.now.len() - AROUND;
        &mut self.now[AROUND..end]
    }

    /// What is not as a call leaves it. After an answer the first 8 × T numbers are zero, the others and what lies around the area
    /// as they were; after a refusal all is as it was.
    fn wrong<T>(&self, pair: &Pair, answer: &Result<T, u8>) -> Option<String> {
        let room = self.now.len() - 2 * AROUND;
        let needs = if answer.is_ok() { pair.room() } else { Some(0) };
        let Some(zero) = needs.filter(|&needs| needs <= room) else {
            return Some(format!("answered with a work area of {room}, needed {needs:?}"));
        };
        let zeros = AROUND..AROUND + zero;
        let right = |place: &usize| match zeros.contains(place) {
            true => self.now[*place] == 0,
            false => self.now[*place] == self.before[*place],
        };
        let wrong = (0..self.now.len()).find(|place| !right(place))?;
        let place = wrong as isize - AROUND as isize;
        Some(format!("the work area of {room} is wrong at {place}, needed {zero}"))
    }

    /// Stops with a report unless all is as a call leaves it.
    pub(super) fn check<T>(
        &self,
        what: &str,
        pair: &Pair,
        answer: &Result<T, u8>,
        input: impl FnOnce() -> String,
    ) {
        if let Some(wrong) = self.wrong(pair, answer) {
            panic!("{what}: {wrong}\n{}", input());
        }
    }
}

#[cfg(test)]
mod tests {
    use super::*;
    use crate::inputs::model::file_of;
    use crate::second::model::examples::m1;

    /// A question that needs 16 numbers.
    fn needs_16() -> Pair {
        Pair { file: file_of(&m1()), text: b"A.T".to_vec() }
    }

    #[test]
    fn each_wrong_number_is_found_in_the_area_and_around_it() {
        for (answer, zero) in [(Ok(()), 16), (Err(1), 0)] {
            let mut area = WorkArea::of(&mut Rng::new(3), 19);
            area.lent()[..zero].fill(0);
            assert_eq!(area.wrong(&needs_16(), &answer), None);
            for place in 0..19 + 2 * AROUND {
                area.now[place] ^= 1;
                let told = format!("the work area of 19 is wrong at {}, needed {zero}", place as isize - 64);
                assert_eq!(area.wrong(&needs_16(), &answer), Some(told));
                area.now[place] ^= 1;
            }
        }
    }

    #[test]
    fn an_answer_in_an_area_that_is_too_short_is_found() {
        let mut area = WorkArea::of(&mut Rng::new(4), 15);
        area.lent().fill(0);
        let told = "answered with a work area of 15, needed Some(16)".to_string();
        assert_eq!(area.wrong(&needs_16(), &Ok(())), Some(told));
    }
}
