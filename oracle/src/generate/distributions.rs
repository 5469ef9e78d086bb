//! Distributions that are accepted: ordinary ones, and those at every boundary of document 01.

use super::dice::Dice;
use crate::distribution::{CategoricalDistribution, Distribution, FloatDistribution, IntDistribution};
use crate::judge;

/// 2^53.
pub const TOP: i64 = 1 << 53;

pub fn float(low: f64, high: f64, step: Option<f64>) -> Distribution {
    Distribution::Float(FloatDistribution {
        low,
        high,
        log_scale: false,
        step,
    })
}

pub fn int(low: i64, high: i64, step: Option<i64>) -> Distribution {
    Distribution::Int(IntDistribution {
        low,
        high,
        log_scale: false,
        step,
    })
}

pub fn choice(count: usize) -> Distribution {
    Distribution::Categorical(CategoricalDistribution { n_choices: count })
}

/// One that is accepted, of any kind.
pub fn accepted(dice: &mut Dice) -> Distribution {
    let d = match dice.below(5) {
        0 | 1 => some_float(dice),
        2 | 3 => some_int(dice),
        _ => some_choice(dice),
    };
    debug_assert_eq!(judge::distribution(&d), None, "{d:?}");
    d
}

/// A Float or Int distribution that is accepted.
pub fn continuous(dice: &mut Dice) -> Distribution {
    if dice.percent(50) {
        some_float(dice)
    } else {
        some_int(dice)
    }
}

/// A Float distribution that is accepted.
pub fn some_float(dice: &mut Dice) -> Distribution {
    let two51 = (1u64 << 51) as f64;
    let (low, high) = match dice.below(15) {
        0..=2 => {
            let low = dice.unit() * 20.0 - 10.0;
            (low, low + dice.unit() * 30.0)
        }
        3 => (0.0, 1.0),
        4 => {
            let low = dice.below(20) as f64 / 10.0 - 1.0;
            (low, low + dice.below(40) as f64 / 10.0)
        }
        5 => *dice.pick(&[
            (-1e300, 1e300),
            (0.0, 1e300),
            (-1e300, -1e300),
            (1e300, 1e300),
            (-1e300, 5e-324),
            (9.99e299, 1e300),
        ]),
        6 => *dice.pick(&[(0.0, 0.0), (-0.0, 0.0), (0.0, -0.0), (-0.0, -0.0)]),
        7 => {
            let x = dice.unit() * 100.0 - 50.0;
            (x, x)
        }
        8 => *dice.pick(&[
            (1.0, 1.0 + f64::EPSILON),
            (1.0, 1.0 + 3.0 * f64::EPSILON),
            (0.0, 5e-324),
            (-5e-324, 5e-324),
            (0.0, 2.2250738585072014e-308),
        ]),
        // Here doubles stand half a unit apart, so that exact halves are rounded.
        9 => {
            let low = two51 + dice.below(9) as f64;
            (low, low + dice.between(1, 12) as f64)
        }
        10 => {
            let high = -two51 - dice.below(9) as f64;
            (high - dice.between(1, 12) as f64, high)
        }
        11 => return rounding(dice),
        12 => return past_high(dice),
        13 => (-0.0, dice.unit()),
        _ => (-dice.unit() * 1e-3, dice.unit() * 1e12),
    };
    let step = float_step(dice, low, high);
    float(low, high, step)
}

/// One on which rounding halves away from zero parts from another way of rounding.
pub fn rounding(dice: &mut Dice) -> Distribution {
    let near = |dice: &mut Dice, power: u32| (1i64 << power) + dice.below(9) as i64;
    match dice.below(7) {
        // An entry that is clamped to high is just below half a step from low, or some halves.
        0 | 1 => float(
            0.0,
            *dice.pick(&[0.49999999999999994, 0.49999999999999994, 0.5, 1.5, 2.5]),
            Some(1.0),
        ),
        2 => int(0, *dice.pick(&[1, 3, 5, 9]), Some(2)),
        // Half a unit is lost when it is added to an odd number of 2^52 and more.
        3 => int(*dice.pick(&[0, -TOP, 1]), TOP, Some(1)),
        4 => {
            let low = near(dice, 52);
            int(low, low + dice.between(1, 12) as i64, None)
        }
        // Between 2^51 and 2^52 doubles stand half a unit apart.
        5 => {
            let low = near(dice, 51);
            let high = low + dice.between(1, 12) as i64;
            if dice.percent(50) {
                int(low, high, None)
            } else {
                int(-high, -low, None)
            }
        }
        _ => {
            let low = near(dice, 51) as f64;
            float(low, low + dice.between(1, 12) as f64, Some(1.0))
        }
    }
}

/// One on which mutants are often beyond a bound or on it: few doubles, or halves that are rounded, or any.
pub fn beyond(dice: &mut Dice) -> Distribution {
    let tiny = |dice: &mut Dice, most: usize| dice.between(1, most) as f64 * 5e-324;
    match dice.below(5) {
        0 => float(-tiny(dice, 9), tiny(dice, 9), None),
        1 => float(0.0, tiny(dice, 1 << 52), None),
        2 => {
            let low = (1i64 << dice.between(50, 52)) + dice.below(9) as i64;
            int(low, low + dice.between(1, 6) as i64, None)
        }
        _ => continuous(dice),
    }
}

/// One whose bounds are as large as they may be, or nearly so; seldom another.
pub fn extreme(dice: &mut Dice) -> Distribution {
    let top = judge::FLOAT_LIMIT;
    let near = |dice: &mut Dice| top * (1.0 - 0.1 * dice.unit());
    let (low, high) = match dice.below(9) {
        0..=3 => (-top, top),
        4..=6 => (-near(dice), near(dice)),
        7 => *dice.pick(&[
            (0.0, top),
            (-top, 0.0),
            (-top, -top),
            (top.next_down(), top),
            (-top, -top.next_down()),
        ]),
        _ => return accepted(dice),
    };
    let step = float_step(dice, low, high);
    float(low, high, step)
}

/// A step whose last multiple is above high by rounding, while (high - low)/step rounds up to its number.
fn past_high(dice: &mut Dice) -> Distribution {
    for _ in 0..1_000 {
        let low = *dice.pick(&[0.0, -1.0, 0.1]);
        let step = dice.unit() + 0.01;
        let n = dice.between(1, 9) as f64;
        let high = (low + n * step).next_down();
        if high > low && ((high - low) / step).floor() == n {
            return float(low, high, Some(step));
        }
    }
    float(0.0, 1.0, Some(0.3))
}

/// A step that is accepted with these bounds, or none.
fn float_step(dice: &mut Dice, low: f64, high: f64) -> Option<f64> {
    if dice.percent(45) {
        return None;
    }
    let width = high - low;
    let step = match dice.below(9) {
        0 => width / dice.between(1, 12) as f64,
        1 => width * dice.unit(),
        2 => width * (1.0 + dice.unit()),
        3 => width / judge::QUOTIENT_LIMIT,
        4 => 0.1 * dice.between(1, 9) as f64,
        5 => 1.0,
        6 => 0.25,
        7 => *dice.pick(&[5e-324, f64::MAX, 1e300]),
        _ => width / (dice.unit() * 100.0 + 1.0),
    };
    let d = float(low, high, Some(step));
    (judge::distribution(&d).is_none()).then_some(step)
}

/// An Int distribution that is accepted.
pub fn some_int(dice: &mut Dice) -> Distribution {
    let (low, high) = match dice.below(12) {
        0..=2 => {
            let low = dice.below(40) as i64 - 20;
            (low, low + dice.below(30) as i64)
        }
        3 => (0, 1),
        4 => (1, 11),
        5 => {
            let x = dice.below(100) as i64 - 50;
            (x, x)
        }
        6 => *dice.pick(&[
            (-TOP, TOP),
            (0, TOP),
            (-TOP, 0),
            (TOP, TOP),
            (-TOP, -TOP),
            (TOP - 9, TOP),
        ]),
        // Doubles stand half a unit apart, so that exact halves are rounded.
        7 => {
            let low = (1 << 51) + dice.below(9) as i64;
            (low, low + dice.between(1, 12) as i64)
        }
        8 => {
            let high = -(1 << 51) - dice.below(9) as i64;
            (high - dice.between(1, 12) as i64, high)
        }
        // And here a unit apart, so that half a unit is lost in a sum.
        9 => {
            let low = (1 << 52) + dice.below(9) as i64;
            (low, low + dice.between(1, 12) as i64)
        }
        10 => (-(dice.below(1000) as i64), dice.below(1_000_000) as i64),
        _ => (-1, 1),
    };
    let step = int_step(dice, low, high);
    int(low, high, step)
}

fn int_step(dice: &mut Dice, low: i64, high: i64) -> Option<i64> {
    if dice.percent(45) {
        return None;
    }
    let width = high - low;
    Some(match dice.below(7) {
        0 => 1,
        1 => dice.between(2, 5) as i64,
        2 => (width / dice.between(1, 6) as i64).clamp(1, TOP),
        3 => (width / 2 + 1).min(TOP),
        4 => (width + 1).min(TOP),
        5 => TOP,
        _ => dice.between(1, 1000) as i64,
    })
}

/// A Categorical distribution that is accepted.
pub fn some_choice(dice: &mut Dice) -> Distribution {
    choice(match dice.below(7) {
        0 => 1,
        1 => 2,
        2 => 3,
        3 => 7,
        4 => 256,
        5 => judge::MOST_CHOICES,
        _ => dice.between(1, judge::MOST_CHOICES),
    })
}
