//! Seeded inputs for the comparisons: the same seed gives the same inputs.
//!
//! * [`model`]: models of both versions, their files, damaged files, records that break the layout.
//! * [`sentence`]: sentences grown from the grammar, damaged texts, texts and
//!   records at each limit.
//! * [`question`]: pairs of a model and a sentence that suit one another.
//! * [`extreme`]: such pairs at the ends of what is answered.
//! * [`naming`]: such pairs whose paths name some of the variables.
//! * [`watch`]: such pairs with another window for one until.
//! * [`room`]: such pairs of every number of tuples, and calls that a row other than 1 refuses.
//! * [`grouping`]: groupings that a model was made for, and spoiled ones.

pub mod extreme;
pub mod grouping;
pub mod model;
pub mod naming;
pub mod question;
pub mod room;
pub mod sentence;
pub mod watch;

/// A small pseudo-random generator (splitmix64).
#[derive(Clone, Debug)]
pub struct Rng(u64);

impl Rng {
    /// The generator of a seed.
    pub fn new(seed: u64) -> Rng {
        Rng(seed)
    }

    /// The next 64 bits.
    pub fn bits(&mut self) -> u64 {
        self.0 = self.0.wrapping_add(0x9e37_79b9_7f4a_7c15);
        let mut z = self.0;
        z = (z ^ (z >> 30)).wrapping_mul(0xbf58_476d_1ce4_e5b9);
        z = (z ^ (z >> 27)).wrapping_mul(0x94d0_49bb_1331_11eb);
        z ^ (z >> 31)
    }

    /// A number below `end`, which is not 0.
    pub fn below(&mut self, end: usize) -> usize {
        (self.bits() % end as u64) as usize
    }

    /// A number from `low` to `high`, both included.
    pub fn between(&mut self, low: usize, high: usize) -> usize {
        low + self.below(high - low + 1)
    }

    /// True `part` times out of `whole`.
    pub fn chance(&mut self, part: usize, whole: usize) -> bool {
        self.below(whole) < part
    }

    /// Any byte.
    pub fn byte(&mut self) -> u8 {
        self.bits() as u8
    }

    /// One of the given values.
    pub fn pick<T: Copy>(&mut self, values: &[T]) -> T {
        values[self.below(values.len())]
    }

    /// A list in another order.
    pub fn shuffle<T>(&mut self, list: &mut [T]) {
        for i in (1..list.len()).rev() {
            let j = self.below(i + 1);
            list.swap(i, j);
        }
    }

    /// Splits a total into so many parts that add up to it: all in one part, in
    /// a few, or spread over all.
    pub fn split(&mut self, total: u32, parts: usize) -> Vec<u32> {
        let mut shares = vec![0; parts];
        let cuts = self.pick(&[0, 1, 2, 3, 4, parts, 2 * parts]);
        let mut left = total;
        for _ in 0..cuts {
            let share = self.below(left as usize + 1) as u32;
            shares[self.below(parts)] += share;
            left -= share;
        }
        shares[self.below(parts)] += left;
        shares
    }
}
