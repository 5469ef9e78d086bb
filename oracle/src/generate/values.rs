//! Results of trials, and entries that a file has and no sampler makes.

use super::dice::Dice;
use crate::entries;
use crate::history::{Entry, State};

/// How the results of a campaign are chosen.
#[derive(Clone, Copy, Debug, PartialEq)]
pub enum Values {
    /// Anywhere in 0 to 1.
    Uniform,
    /// Of a few, so that ties are frequent.
    Few,
    /// Zeros of both signs, seldom their neighbours.
    Zeros,
    /// Infinities of both signs among others.
    Infinities,
    /// Nearly all +infinity at first, the largest number among them.
    Infinite,
    /// Smaller from generation to generation.
    Falling,
    /// Larger, so that nothing is replaced.
    Rising,
    /// One value.
    Constant,
    /// Any double but NaN.
    Any,
}

pub const ALL: [Values; 9] = [
    Values::Uniform,
    Values::Few,
    Values::Zeros,
    Values::Infinities,
    Values::Infinite,
    Values::Falling,
    Values::Rising,
    Values::Constant,
    Values::Any,
];

impl Values {
    /// A result in the generation after so many closings.
    pub fn next(self, dice: &mut Dice, closed: u64) -> f64 {
        let age = closed as f64;
        match self {
            Values::Uniform => dice.unit(),
            Values::Few => dice.below(4) as f64 - 1.0,
            Values::Zeros if dice.once_in(20) => *dice.pick(&[5e-324, 5e-324, -5e-324]),
            Values::Zeros => *dice.pick(&[0.0, -0.0]),
            Values::Infinities => match dice.below(5) {
                0 | 1 => f64::INFINITY,
                2 => f64::NEG_INFINITY,
                _ => dice.unit(),
            },
            Values::Infinite if closed < 2 && !dice.once_in(25) => f64::INFINITY,
            Values::Infinite => *dice.pick(&[f64::INFINITY, f64::INFINITY, 1.0, f64::MAX]),
            Values::Falling => dice.unit() - age,
            Values::Rising => dice.unit() + age,
            Values::Constant => 7.0,
            Values::Any => loop {
                let x = f64::from_bits(dice.word());
                if !x.is_nan() {
                    return x;
                }
            },
        }
    }
}

/// Patterns of NaN.
pub const NANS: [f64; 3] = [f64::NAN, -f64::NAN, f64::from_bits(0x7ff0_0000_0000_0001)];

/// The entry of a trial that was pruned or failed: often its last figure is no number, or better than every other.
pub fn incomplete(trial: u64, figure: f64, dice: &mut Dice) -> Entry {
    Entry {
        trial,
        value: match dice.below(5) {
            0 => *dice.pick(&NANS),
            1 => *dice.pick(&[f64::NEG_INFINITY, f64::INFINITY, -1e300]),
            _ => figure,
        },
        state: *dice.pick(&[State::Pruned, State::Failed]),
    }
}

/// An entry that a sound state may have, as large as it may be or nearly so.
pub fn sound_entry(dice: &mut Dice) -> f64 {
    let some = entries::LIMIT * dice.unit();
    let size = *dice.pick(&[
        entries::LIMIT,
        entries::LIMIT,
        entries::LIMIT.next_down(),
        2e300f64.next_up(),
        1e300f64.next_up(),
        some,
    ]);
    signed(size, dice)
}

/// One that none may have.
pub fn too_large(dice: &mut Dice) -> f64 {
    let past = entries::LIMIT.next_up();
    let size = *dice.pick(&[past, past, past, 5e300, f64::MAX, f64::INFINITY, f64::NAN]);
    signed(size, dice)
}

fn signed(size: f64, dice: &mut Dice) -> f64 {
    if dice.percent(50) { size } else { -size }
}
