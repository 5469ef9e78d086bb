//! A stand-in for the crate `fastrand`, of which no source is at hand: the generator of document 01,
//! SplitMix64, under the names that the Rust uses. It counts its draws; one output is one draw.

use std::ops::{Range, RangeInclusive};
use std::sync::atomic::{AtomicBool, Ordering};

/// What the word grows by.
const GROWTH: u64 = 0x9e37_79b9_7f4a_7c15;

static FAULT: AtomicBool = AtomicBool::new(false);

/// Turns one bit of one constant round from now on, to show that a comparison can fail.
pub fn make_faulty() {
    FAULT.store(true, Ordering::Relaxed);
}

/// A generator: one 64-bit word, and how many outputs it has given.
#[derive(Clone, Debug)]
pub struct Rng {
    word: u64,
    draws: u64,
}

impl Rng {
    /// Nothing is seeded at random: whoever asks for it has left the seed out.
    #[allow(clippy::new_without_default)]
    pub fn new() -> Self {
        panic!("a sampler without a seed");
    }

    /// The seed is the first word.
    pub fn with_seed(seed: u64) -> Self {
        Self { word: seed, draws: 0 }
    }

    /// The word as it stands.
    pub fn word(&self) -> u64 {
        self.word
    }

    /// Outputs given so far.
    pub fn draws(&self) -> u64 {
        self.draws
    }

    /// One output.
    pub fn next_output(&mut self) -> u64 {
        self.draws += 1;
        self.word = self.word.wrapping_add(GROWTH);
        let mut z = self.word;
        z = (z ^ (z >> 30)).wrapping_mul(0xbf58_476d_1ce4_e5b9);
        z = (z ^ (z >> 27)).wrapping_mul(0x94d0_49bb_1331_11eb);
        if FAULT.load(Ordering::Relaxed) {
            return z ^ (z >> 30);
        }
        z ^ (z >> 31)
    }

    /// A unit: the output's upper 53 bits, times 2^-53.
    pub fn f64(&mut self) -> f64 {
        unit(self.next_output())
    }

    /// `usize(0..n)`: output mod n. The Rust asks for no other range.
    pub fn usize(&mut self, range: Range<usize>) -> usize {
        assert!(range.start == 0 && range.end > 0, "usize({range:?})");
        below(self.next_output(), range.end)
    }

    /// `i64(a..=b)`: a + output mod (b - a + 1).
    pub fn i64(&mut self, range: RangeInclusive<i64>) -> i64 {
        between(self.next_output(), *range.start(), *range.end())
    }
}

fn unit(output: u64) -> f64 {
    (output >> 11) as f64 * (1.0 / (1u64 << 53) as f64)
}

fn below(output: u64, n: usize) -> usize {
    (output % n as u64) as usize
}

fn between(output: u64, a: i64, b: i64) -> i64 {
    assert!(a <= b, "i64({a}..={b})");
    let width = i128::from(b) - i128::from(a) + 1;
    (i128::from(a) + i128::from(output) % width) as i64
}

#[cfg(test)]
mod tests {
    use super::*;

    #[test]
    fn published_outputs_of_seed_1234567() {
        let mut g = Rng::with_seed(1_234_567);
        let outputs: Vec<u64> = (0..5).map(|_| g.next_output()).collect();
        assert_eq!(
            outputs,
            [
                6_457_827_717_110_365_317,
                3_203_168_211_198_807_973,
                9_817_491_932_198_370_423,
                4_593_380_528_125_082_431,
                16_408_922_859_458_223_821
            ]
        );
        assert_eq!(g.draws(), 5);
        assert_eq!(g.word(), 1_234_567u64.wrapping_add(GROWTH.wrapping_mul(5)));
    }

    #[test]
    fn units_reach_from_0_to_just_below_1() {
        assert_eq!(unit(0), 0.0);
        assert_eq!(unit(u64::MAX), 1.0 - 2f64.powi(-53));
        assert_eq!(unit(0x7ff), 0.0);
        assert_eq!(unit(0x800), 2f64.powi(-53));
    }

    #[test]
    fn below_and_between_take_the_remainder() {
        assert_eq!(below(13, 5), 3);
        assert_eq!(between(13, -2, 2), 1);
        assert_eq!(between(u64::MAX, i64::MIN, i64::MAX), i64::MAX);
        assert_eq!(between(u64::MAX, 7, 7), 7);
        let most = 1i64 << 53;
        assert_eq!(between((1 << 54) + 1, -most, most), -most);
        assert_eq!(between(1 << 54, -most, most), most);
    }

    #[test]
    fn each_kind_of_draw_is_one_draw() {
        let mut g = Rng::with_seed(0);
        g.f64();
        g.usize(0..7);
        g.i64(-3..=3);
        assert_eq!(g.draws(), 3);
    }
}
