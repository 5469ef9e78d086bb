//! Lines of exports: values of every form that is accepted, and trial numbers up to their most.

use super::dice::Dice;

/// Digits of a value, at most.
pub const DIGITS: usize = 15;

/// A form: so many digits, the point before the last so many of them (0: no point), a minus or none.
#[derive(Clone, Copy, Debug, PartialEq)]
pub struct Form {
    pub digits: usize,
    pub places: usize,
    pub minus: bool,
}

impl Form {
    /// Every form there is.
    pub fn all() -> impl Iterator<Item = Form> {
        let form = |digits, places| [false, true].map(|minus| Form { digits, places, minus });
        (1..=DIGITS).flat_map(move |digits| (0..digits).flat_map(move |places| form(digits, places)))
    }

    fn random(dice: &mut Dice) -> Form {
        // Long ones are the more frequent, since there are more of them.
        let digits = dice.between(1, DIGITS).max(dice.between(1, DIGITS));
        Form {
            digits,
            places: dice.below(digits),
            minus: dice.once_in(3),
        }
    }

    /// The text of a number below ten to the power of the digits.
    pub fn text(self, number: u64) -> String {
        let digits = format!("{number:0>width$}", width = self.digits);
        let (before, after) = digits.split_at(self.digits - self.places);
        let minus = if self.minus { "-" } else { "" };
        let point = if self.places > 0 { "." } else { "" };
        format!("{minus}{before}{point}{after}")
    }

    fn limit(self) -> u64 {
        10u64.pow(self.digits as u32)
    }

    /// Numbers at the edges of this form: 0, all nines, a one in front, a one behind.
    pub fn edges(self) -> [u64; 4] {
        [0, self.limit() - 1, self.limit() / 10, 1]
    }

    fn any(self, dice: &mut Dice) -> u64 {
        dice.word() % self.limit()
    }

    /// A number with any count of zeros in front.
    fn after_zeros(self, dice: &mut Dice) -> u64 {
        dice.word() % 10u64.pow(dice.between(1, self.digits) as u32)
    }

    /// A number whose decimal is, of those with these places, one of the nearest to a middle between two doubles, where
    /// the search meets one, else any. No decimal of 15 digits is such a middle itself: it would need 54 bits.
    pub fn near_half(self, dice: &mut Dice) -> u64 {
        let any = if dice.once_in(2) {
            self.any(dice)
        } else {
            self.after_zeros(dice)
        };
        if any == 0 || self.places == 0 {
            return any;
        }
        // In units of the double's last place the value is number * 2^doublings / 5^places.
        let fives = 5u64.pow(self.places as u32);
        let binade = exponent(any, self.places);
        let doublings = (52 - binade) as usize - self.places;
        // What is left over is to be one of the four remainders about the middle, two on either side: of these the one is
        // over an even double, the other over an odd one. Halved as often, it is the number's own remainder.
        let wanted = fives / 2 - 1 + dice.word() % 4;
        let halved = |rest: u64| {
            if rest.is_multiple_of(2) {
                rest / 2
            } else {
                (rest + fives) / 2
            }
        };
        let rest = (0..doublings).fold(wanted, |rest, _| halved(rest));
        let near = any - any % fives + rest;
        if near < self.limit() && exponent(near, self.places) == binade {
            near
        } else {
            any
        }
    }
}

/// The power of two at or below a number with so many decimal places.
fn exponent(number: u64, places: usize) -> i64 {
    let value = number as f64 / 10f64.powi(places as i32);
    (value.to_bits() >> 52) as i64 - 1_023
}

/// A value's text, of any form.
pub fn value(dice: &mut Dice) -> String {
    let form = Form::random(dice);
    let number = match dice.below(8) {
        0 => *dice.pick(&form.edges()),
        // A few digits among zeros: leading ones, trailing ones, both.
        1 => (form.any(dice) % 1_000) * 10u64.pow(dice.below(DIGITS) as u32) % form.limit(),
        2 => form.after_zeros(dice),
        // Next to a power of two, or to a power of ten.
        3 => ((1u64 << dice.below(50)) - 1 + dice.word() % 3) % form.limit(),
        4 => (10u64.pow(dice.below(DIGITS) as u32) - 1 + dice.word() % 3) % form.limit(),
        5 | 6 => form.near_half(dice),
        _ => form.any(dice),
    };
    form.text(number)
}

/// A trial number's text: one to 20 digits, at most 2^64 - 1.
pub fn trial(dice: &mut Dice) -> String {
    let number = match dice.below(5) {
        0 => dice.word() % 1_000,
        1 => u64::MAX - dice.word() % 20,
        2 => 10u64.pow(dice.below(20) as u32) - 1 + dice.word() % 3,
        _ => dice.word() >> dice.below(64),
    };
    let width = if dice.once_in(4) { dice.between(1, 20) } else { 0 };
    format!("{number:0>width$}")
}

/// A line.
pub fn line(dice: &mut Dice) -> String {
    format!("{},{}\n", trial(dice), value(dice))
}

/// A line as long as there is one.
pub fn longest_line(dice: &mut Dice) -> String {
    let form = Form {
        digits: DIGITS,
        places: dice.between(1, DIGITS - 1),
        minus: true,
    };
    let number = if dice.once_in(2) {
        form.near_half(dice)
    } else {
        form.any(dice)
    };
    format!("{:0>20},{}\n", dice.word() >> dice.below(64), form.text(number))
}
