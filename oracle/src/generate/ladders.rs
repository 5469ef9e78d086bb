//! Ladders, and Int distributions with the log flag that are refused: document 02, W9.

use super::dice::Dice;
use super::distributions::{self, TOP};
use crate::distribution::{Distribution, IntDistribution};
use crate::judge;
use crate::ladder::HIGHEST;
use crate::rungs::{LAST, rung};

/// An Int with the log flag.
pub fn log(low: i64, high: i64, step: Option<i64>) -> Distribution {
    Distribution::Int(IntDistribution {
        low,
        high,
        log_scale: true,
        step,
    })
}

pub fn ladder(low: i64, high: i64) -> Distribution {
    log(low, high, None)
}

/// A ladder that is accepted.
pub fn some(dice: &mut Dice) -> Distribution {
    let (low, high) = match dice.below(10) {
        0 => (1, 64),
        1 => *dice.pick(&[(1, HIGHEST), (2, HIGHEST), (1, HIGHEST - 1), (HIGHEST - 1, HIGHEST)]),
        2 => {
            let number = any(dice);
            (number, number)
        }
        3 => (1, any(dice)),
        4 => (on_rung(dice), on_rung(dice)),
        5 => (power(dice), power(dice)),
        // All numbers up to some 370 are rungs, the first of them of many positions.
        6 => (dice.between(1, 30) as i64, dice.between(1, 500) as i64),
        7 => return narrow(dice),
        _ => (any(dice), any(dice)),
    };
    let d = ladder(low.min(high), high.max(low));
    debug_assert_eq!(judge::distribution(&d), None, "{d:?}");
    d
}

/// One with few positions and many numbers between their rungs; low and high are between rungs too.
fn narrow(dice: &mut Dice) -> Distribution {
    let lower = dice.between(5_000, LAST as usize - 3) as i64;
    let upper = lower + dice.between(1, 3) as i64;
    ladder(rung(lower) + 1, rung(upper) - 1)
}

/// One that is accepted: a ladder now and then, or of any other kind.
pub fn or_another(dice: &mut Dice) -> Distribution {
    if dice.percent(12) {
        some(dice)
    } else {
        distributions::accepted(dice)
    }
}

/// From 1 to 2^31.
fn any(dice: &mut Dice) -> i64 {
    let number = match dice.below(4) {
        0 | 1 => on_rung(dice) + dice.below(3) as i64 - 1,
        2 => power(dice) + dice.below(3) as i64 - 1,
        _ => (dice.word() >> dice.between(33, 63)) as i64 + 1,
    };
    number.clamp(1, HIGHEST)
}

fn on_rung(dice: &mut Dice) -> i64 {
    rung(dice.between(0, LAST as usize) as i64)
}

fn power(dice: &mut Dice) -> i64 {
    1 << dice.below(32)
}

/// An Int with the log flag that is refused, by 4 or 5.
pub fn refused(dice: &mut Dice) -> Distribution {
    let step = *dice.pick(&[1, 2, 0, -1, TOP + 1]);
    let (low, high, step) = match dice.below(8) {
        0 | 1 => (0, *dice.pick(&[0, 1, 64, HIGHEST]), None),
        2 => (-(dice.between(1, 100) as i64), 64, None),
        3 | 4 => (*dice.pick(&[1, HIGHEST, HIGHEST + 1]), HIGHEST + 1, None),
        5 => (*dice.pick(&[1, 0, -TOP]), TOP, None),
        6 => (1, 10, Some(step)),
        _ => *dice.pick(&[
            (3, 2, None),
            (1, TOP + 1, None),
            (HIGHEST, 1, None),
            (-TOP - 1, 64, None),
            (3, 2, Some(0)),
        ]),
    };
    let d = log(low, high, step);
    debug_assert!(judge::distribution(&d).is_some(), "{d:?}");
    d
}
