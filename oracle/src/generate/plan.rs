//! What a random section is to be like.

use super::class::Class;
use super::dice::Dice;
use super::distributions;
use super::exhaustive::STRATEGIES;
use super::ladders;
use super::values::{self, Values};
use crate::distribution::Distribution;
use crate::judge;
use crate::midpoint::BoundsRule;
use crate::script::SetUp;

/// How many calls a trial makes.
#[derive(Clone, Copy, Debug)]
pub enum Each {
    One,
    All,
    Fewer,
    More,
}

/// How trials are numbered.
#[derive(Clone, Copy, Debug)]
pub enum Numbers {
    Up,
    Down,
    Random,
}

/// Times in a hundred.
#[derive(Clone, Debug, Default)]
pub struct Chances {
    /// A call lends another distribution than the stored one.
    pub lent: u32,
    /// A result stands twice, another value first.
    pub twice: u32,
    /// An entry is told as pruned or failed. Where this is 0 every entry is complete, but for what is refused.
    pub incomplete: u32,
    /// A result is told before the trial has called.
    pub early: u32,
    /// A result of a trial that never calls.
    pub stranger: u32,
    /// The history is cleared, and told again in part.
    pub clear: u32,
    /// A trial of an earlier generation calls.
    pub old: u32,
    /// The first trial calls.
    pub first: u32,
    /// A trial is slow to finish.
    pub slow: u32,
    /// A call is refused.
    pub refused: u32,
    /// A file that is restored has entries far past their bounds.
    pub large: u32,
}

/// What a random section is to be like.
pub struct Plan {
    pub setup: SetUp,
    pub dims: Vec<Distribution>,
    pub generations: u64,
    pub most_calls: u64,
    pub workers: usize,
    pub each: Each,
    pub values: Values,
    pub numbers: Numbers,
    pub start: u64,
    /// The first trial of each generation is held back until no extra is left to give.
    pub hold: bool,
    /// The history is cleared when it has so many entries.
    pub most_entries: usize,
    /// The campaign is saved and restored now and then.
    pub restarts: bool,
    /// Kept files are damaged now and then, so that they are refused.
    pub damage: bool,
    pub chances: Chances,
}

impl Plan {
    pub fn random(class: Class, dice: &mut Dice) -> Self {
        let dims = dims(class, dice);
        let size = size(class, dice, &dims);
        let slots = size.map_or(15, |s| s.max(4)) as usize;
        let often = |dice: &mut Dice| *dice.pick(&[0, 0, 2, 10]);
        let word = dice.word();
        let mut plan = Self {
            setup: SetUp {
                f: f(dice),
                cr: cr(dice),
                strategy: *dice.pick(&STRATEGIES),
                size,
                seed: *dice.pick(&[0, u64::MAX, word, word, word >> 40]),
                rule: if dice.percent(20) {
                    BoundsRule::Midpoint
                } else {
                    BoundsRule::Clamp
                },
            },
            dims,
            generations: dice.between(2, 8) as u64,
            most_calls: 600,
            workers: *dice.pick(&[1, 2, slots, slots + 3]),
            each: *dice.pick(&[Each::One, Each::One, Each::All, Each::Fewer, Each::More]),
            values: *dice.pick(&values::ALL),
            numbers: *dice.pick(&[Numbers::Up, Numbers::Up, Numbers::Down, Numbers::Random]),
            start: *dice.pick(&[1, 1, 0, 7, u64::MAX / 2]),
            hold: false,
            most_entries: dice.between(60, 300),
            restarts: dice.percent(50),
            damage: dice.percent(20),
            chances: Chances {
                lent: *dice.pick(&[0, 10, 50]),
                twice: *dice.pick(&[0, 10, 40]),
                incomplete: *dice.pick(&[0, 0, 10, 40]),
                early: often(dice),
                stranger: often(dice),
                clear: *dice.pick(&[0, 0, 1, 4]),
                old: often(dice),
                first: often(dice),
                slow: *dice.pick(&[0, 10, 30]),
                refused: 0,
                large: *dice.pick(&[0, 0, 0, 10]),
            },
        };
        plan.suit(class, dice);
        plan
    }

    fn suit(&mut self, class: Class, dice: &mut Dice) {
        match class {
            Class::Quick => {
                self.each = *dice.pick(&[Each::One, Each::One, Each::One, Each::Fewer]);
                self.generations = dice.between(20, 60) as u64;
                self.workers = *dice.pick(&[1, 2, 4, 5]);
                self.chances.slow = *dice.pick(&[0, 0, 0, 5]);
            }
            Class::Big => {
                self.each = *dice.pick(&[Each::One, Each::One, Each::Fewer]);
                self.generations = dice.between(2, 3) as u64;
                self.most_calls = 2_500;
                self.workers = *dice.pick(&[4, 160, 170]);
                self.most_entries = 700;
                self.chances.clear = 0;
            }
            Class::Extras => {
                self.workers = 300;
                self.each = Each::One;
                self.hold = true;
                self.generations = 3;
                self.chances.clear = 0;
            }
            Class::Wide => {
                self.most_calls = 1_500;
                self.generations = dice.between(2, 4) as u64;
            }
            Class::Long => {
                self.most_entries = dice.between(1_000, 4_000);
                self.chances.stranger = 60;
                self.chances.clear = 0;
                self.most_calls = 300;
            }
            Class::Short => {
                self.generations = 1;
                self.most_calls = dice.between(0, 30) as u64;
                self.restarts = dice.percent(60);
                // Some of these scripts are spoilt: what a spoilt damage makes of a file is not for certain.
                self.damage = false;
            }
            Class::Refusals => {
                self.chances.refused = *dice.pick(&[5, 15, 40]);
                self.chances.large = 30;
                self.hold = dice.percent(30);
                self.workers += if self.hold { 80 } else { 0 };
                self.generations = dice.between(1, 4) as u64;
                self.restarts = true;
                self.damage = true;
            }
            Class::Rate => {
                self.each = Each::One;
                self.generations = 1;
            }
            Class::Rounding => {
                // Entries at high are wanted.
                self.setup.rule = BoundsRule::Clamp;
                self.setup.f = *dice.pick(&[1.0, 1.5, 2.0]);
                self.setup.cr = *dice.pick(&[0.5, 1.0]);
                self.each = Each::All;
                self.workers = *dice.pick(&[1, 4]);
                self.generations = 12;
                self.chances.slow = 0;
            }
            Class::Beyond => {
                self.setup.rule = BoundsRule::Midpoint;
                self.setup.f = *dice.pick(&[0.5, 1.0, 2.0]);
                self.setup.cr = *dice.pick(&[0.5, 0.9, 1.0]);
                self.each = Each::One;
                self.generations = dice.between(8, 20) as u64;
                self.workers = *dice.pick(&[1, 4]);
                self.chances.slow = 0;
            }
            Class::Extreme => {
                self.setup.f = *dice.pick(&[2.0, 2.0, 2.0, 2.0f64.next_down()]);
                self.setup.cr = *dice.pick(&[1.0, 1.0, 0.9]);
                self.setup.rule = *dice.pick(&[BoundsRule::Clamp, BoundsRule::Midpoint]);
                self.each = Each::One;
                self.generations = dice.between(10, 30) as u64;
                self.workers = *dice.pick(&[1, 4]);
                self.chances.slow = 0;
                self.restarts = self.setup.rule == BoundsRule::Clamp;
                self.damage = true;
                self.chances.large = 80;
                // Parents that a file brought stay.
                self.values = *dice.pick(&[self.values, Values::Rising]);
            }
            Class::Ladders => {
                self.setup.rule = *dice.pick(&[BoundsRule::Clamp, BoundsRule::Clamp, BoundsRule::Midpoint]);
                self.setup.f = *dice.pick(&[self.setup.f, 0.5, 0.5, 1.0, 2.0]);
                self.each = *dice.pick(&[Each::One, Each::All, Each::All, Each::More]);
                self.generations = dice.between(8, 24) as u64;
                self.workers = *dice.pick(&[1, 4, 5]);
                self.chances.lent = *dice.pick(&[0, 10, 40]);
                self.chances.refused = *dice.pick(&[0, 5]);
                self.chances.slow = 0;
                self.restarts = dice.percent(70);
            }
            Class::Small | Class::Discrete => (),
        }
    }
}

fn dims(class: Class, dice: &mut Dice) -> Vec<Distribution> {
    let many = dice.between(5, 16);
    let count = match class {
        Class::Quick | Class::Small | Class::Extras | Class::Long => dice.between(1, 4),
        Class::Big => *dice.pick(&[1, 2, 16]),
        Class::Rate => dice.between(2, 6),
        Class::Rounding | Class::Beyond | Class::Extreme => dice.between(1, 3),
        Class::Ladders => *dice.pick(&[1, 1, 2, 3, 4]),
        Class::Wide | Class::Refusals => *dice.pick(&[16, 15, many]),
        Class::Discrete => dice.between(1, 5),
        Class::Short => dice.between(1, 16),
    };
    let continuous = class == Class::Rate || (class == Class::Big && dice.percent(50));
    // In one plan in eight ladders stand among the others. No file holds their states, so they are not in more.
    let ladders = dice.percent(12);
    let one = |dice: &mut Dice| match class {
        Class::Ladders if dice.percent(70) => ladders::some(dice),
        Class::Discrete => distributions::some_choice(dice),
        Class::Rounding => distributions::rounding(dice),
        Class::Beyond => distributions::beyond(dice),
        Class::Extreme => distributions::extreme(dice),
        _ if ladders && dice.percent(40) => ladders::some(dice),
        _ if continuous => distributions::continuous(dice),
        _ => distributions::accepted(dice),
    };
    (0..count).map(|_| one(dice)).collect()
}

fn size(class: Class, dice: &mut Dice, dims: &[Distribution]) -> Option<u64> {
    let random = dice.between(6, 40) as u64;
    match class {
        Class::Big if dims.len() == 16 && dice.percent(50) => None,
        Class::Big => Some(judge::MOST_SLOTS),
        Class::Wide => *dice.pick(&[None, Some(0), Some(4), Some(5), Some(random)]),
        Class::Quick | Class::Rounding | Class::Beyond | Class::Ladders | Class::Extras | Class::Refusals => {
            *dice.pick(&[Some(0), Some(3), Some(4), Some(5)])
        }
        Class::Extreme => *dice.pick(&[Some(0), Some(4), Some(5), Some(random)]),
        _ => *dice.pick(&[None, Some(0), Some(3), Some(4), Some(4), Some(5), Some(5), Some(random)]),
    }
}

fn f(dice: &mut Dice) -> f64 {
    match dice.below(4) {
        0 => 0.8,
        1 => dice.unit() * 2.0,
        _ => *dice.pick(&[0.0, -0.0, 0.5, 1.0, 2.0, 5e-324, 1.9999999999999998]),
    }
}

fn cr(dice: &mut Dice) -> f64 {
    match dice.below(4) {
        0 => 0.9,
        1 => dice.unit(),
        _ => *dice.pick(&[0.0, -0.0, 0.5, 1.0, 5e-324, 0.9999999999999999]),
    }
}
