//! What the table refuses, each just past a boundary, often for more than one reason.

use super::dice::Dice;
use super::distributions::{TOP, choice, float, int};
use super::ladders;
use crate::distribution::{Distribution, FloatDistribution};
use crate::judge;
use crate::script::SetUp;

/// A distribution, refused by 4 to 7.
pub fn some(dice: &mut Dice) -> Distribution {
    let mut d = match dice.below(4) {
        0 => some_float(dice),
        1 => some_int(dice),
        2 => ladders::refused(dice),
        _ => choice(*dice.pick(&[0, judge::MOST_CHOICES + 1, usize::MAX, 1 << 32])),
    };
    if dice.percent(20) {
        match &mut d {
            Distribution::Float(d) => d.log_scale = true,
            Distribution::Int(d) => d.log_scale = true,
            Distribution::Categorical(_) => (),
        }
    }
    debug_assert!(judge::distribution(&d).is_some(), "{d:?}");
    d
}

fn some_float(dice: &mut Dice) -> Distribution {
    let past = f64::from_bits(1e300f64.to_bits() + 1);
    match dice.below(4) {
        0 => {
            let (low, high) = *dice.pick(&[
                (f64::NAN, 1.0),
                (0.0, f64::NAN),
                (f64::NEG_INFINITY, 0.0),
                (0.0, f64::INFINITY),
                (0.0, past),
                (-past, 0.0),
                (1.0 + f64::EPSILON, 1.0),
                (5e-324, 0.0),
                (0.0, -5e-324),
            ]);
            let step = *dice.pick(&[None, Some(0.5), Some(0.0), Some(f64::NAN)]);
            float(low, high, step)
        }
        1 => {
            let step = *dice.pick(&[None, Some(1.0), Some(-1.0)]);
            Distribution::Float(FloatDistribution {
                low: 1.0,
                high: 10.0,
                log_scale: true,
                step,
            })
        }
        2 => {
            let step = *dice.pick(&[0.0, -0.0, -1.0, -5e-324, f64::NAN, f64::INFINITY, f64::NEG_INFINITY]);
            float(0.0, dice.below(3) as f64, Some(step))
        }
        // Just over 4,294,967,295 steps.
        _ => {
            let (low, high, step) = *dice.pick(&[
                (0.0, 4_294_967_296.0, 1.0),
                (0.0, 4_294_967_295.000001, 1.0),
                (-1e300, 1e300, 1.0),
                (0.0, 1.0, 5e-324),
                (0.0, 1.0, 2.328306437080796e-10),
            ]);
            float(low, high, Some(step))
        }
    }
}

fn some_int(dice: &mut Dice) -> Distribution {
    match dice.below(2) {
        0 => {
            let (low, high) = *dice.pick(&[
                (3, 2),
                (0, TOP + 1),
                (-TOP - 1, 0),
                (i64::MIN, i64::MAX),
                (i64::MAX, i64::MAX),
                (1, i64::MIN),
            ]);
            let step = *dice.pick(&[None, Some(1), Some(0)]);
            int(low, high, step)
        }
        _ => {
            let step = *dice.pick(&[0, -1, TOP + 1, i64::MAX, i64::MIN]);
            int(1, 9, Some(step))
        }
    }
}

/// A set-up, refused by 1 to 3.
pub fn set_up(setup: &SetUp, dice: &mut Dice) -> SetUp {
    let mut s = setup.clone();
    let which = dice.below(3);
    if which == 0 || dice.percent(20) {
        s.f = *dice.pick(&[2.5, 2.0000000000000004, -5e-324, -1.0, f64::NAN, f64::INFINITY]);
    }
    if which == 1 || dice.percent(20) {
        s.cr = *dice.pick(&[-0.1, 1.0000000000000002, -5e-324, f64::NAN, f64::NEG_INFINITY]);
    }
    if which == 2 {
        s.size = Some(*dice.pick(&[161, 1000, u64::MAX]));
    }
    s
}
