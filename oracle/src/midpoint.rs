//! The bounds rule, and crossover's judgement of an entry under midpoint. NOT the Rust's, which has no rule and clamps: a
//! second reading of document 02, W7. build.rs puts it into a copy of the Rust's functions, of which all else is the
//! Rust's; set-ups with clamp never run that copy.

use std::cell::Cell;

use crate::faults::Chosen;

/// What becomes of a mutant's entry beyond a bound.
#[derive(Clone, Copy, Debug, Default, PartialEq)]
pub enum BoundsRule {
    #[default]
    Clamp,
    Midpoint,
}

impl BoundsRule {
    /// What a mutant's entry that is taken becomes, for the totals.
    pub fn judged(self, mutant: f64, parent: f64, (low, high): (f64, f64)) -> f64 {
        match self {
            BoundsRule::Clamp => mutant.clamp(low, high),
            BoundsRule::Midpoint => Reading(None).drawn_in(mutant, parent, (low, high)).clamp(low, high),
        }
    }
}

/// A wrong reading of W7, to show that a comparison can fail.
#[derive(Clone, Copy, Debug, PartialEq)]
pub enum Fault {
    /// Midpoint is clamp.
    Ignored,
    /// Half the sum with the other bound.
    OtherBound,
    /// The sum of the halves: each is rounded where it is below the normal doubles.
    Halves,
    /// From the bound half the way to the parent's entry: the difference is rounded.
    Difference,
    /// An entry on a bound is drawn in too.
    OnBound,
    /// The writer takes midpoint for clamp.
    Saved,
    /// A refused save empties the kept file.
    Emptied,
    /// A restored state has the rule of the state before it.
    Restored,
}

pub const FAULTS: [(&str, Fault); 8] = [
    ("ignored", Fault::Ignored),
    ("other-bound", Fault::OtherBound),
    ("halves", Fault::Halves),
    ("difference", Fault::Difference),
    ("on-bound", Fault::OnBound),
    ("saved", Fault::Saved),
    ("emptied", Fault::Emptied),
    ("restored", Fault::Restored),
];

/// Every driver made from now on reads W7 so.
pub static CHOSEN: Chosen<Fault> = Chosen::none();

/// How a driver reads W7: rightly, or with a fault.
#[derive(Clone, Copy)]
pub struct Reading(pub(crate) Option<Fault>);

impl Default for Reading {
    fn default() -> Self {
        Self(CHOSEN.get())
    }
}

thread_local! {
    static READING: Cell<Reading> = const { Cell::new(Reading(None)) };
}

/// What stands in the copy of the Rust's crossover where it takes the mutant's entry: "a mutant entry beyond a bound becomes
/// half the sum of the parent's entry and that bound". "Then is clamped": the Rust does so, there as anywhere.
pub fn drawn_in(mutant: f64, parent: f64, bounds: Option<(f64, f64)>) -> f64 {
    READING
        .get()
        .drawn_in(mutant, parent, bounds.expect("an entry has bounds"))
}

impl Reading {
    /// The calls of this thread read W7 so from now on.
    pub fn take_effect(self) {
        READING.set(self);
    }

    /// An entry on a bound is not beyond it.
    fn drawn_in(self, mutant: f64, parent: f64, (low, high): (f64, f64)) -> f64 {
        let on = self.0 == Some(Fault::OnBound);
        if mutant < low || (on && mutant == low) {
            self.halfway(parent, low, high)
        } else if mutant > high || (on && mutant == high) {
            self.halfway(parent, high, low)
        } else {
            mutant
        }
    }

    /// The sum is rounded, then its half.
    fn halfway(self, parent: f64, bound: f64, other: f64) -> f64 {
        match self.0 {
            Some(Fault::Ignored) => bound,
            Some(Fault::OtherBound) => (parent + other) / 2.0,
            Some(Fault::Halves) => parent / 2.0 + bound / 2.0,
            Some(Fault::Difference) => bound + (parent - bound) / 2.0,
            _ => (parent + bound) / 2.0,
        }
    }

    /// "The saved file has no place for midpoint yet, so its writer gives 13 for such a state."
    pub fn has_place(self, rule: BoundsRule) -> bool {
        rule == BoundsRule::Clamp || self.0 == Some(Fault::Saved)
    }

    /// A refused call leaves what it was lent.
    pub fn file_stays(self) -> bool {
        self.0 != Some(Fault::Emptied)
    }

    /// A file gives clamp, whatever stood there before.
    pub fn restored(self, before: BoundsRule) -> BoundsRule {
        match self.0 {
            Some(Fault::Restored) => before,
            _ => BoundsRule::Clamp,
        }
    }
}

#[cfg(test)]
mod tests {
    use super::*;
    use crate::driver::Driver;
    use crate::faults::tests::{each_is_noticed, none_shows_without};

    const TINY: f64 = 5e-324;

    /// By hand, from document 02's words. The half of an odd subnormal goes to the even one beside it.
    #[test]
    fn entries_by_hand() {
        let unit = (0.0, 1.0);
        for (mutant, parent, bounds, expected) in [
            (1.5, 0.25, unit, 0.625),
            (-0.5, 0.25, unit, 0.125),
            (1.0, 0.25, unit, 1.0),
            (0.0, 0.25, unit, 0.0),
            (-0.0, 0.25, unit, -0.0),
            (1.0f64.next_up(), 0.25, unit, 0.625),
            (-TINY, 0.25, unit, 0.125),
            (0.75, 0.25, unit, 0.75),
            // A parent beyond a bound: half the sum may be too, and is clamped.
            (1.5, 3.0, unit, 1.0),
            (1.5, -3.0, unit, 0.0),
            // Two, three and five of the least double, halved.
            (1.0, TINY, (0.0, TINY), TINY),
            (1.0, TINY, (0.0, 2.0 * TINY), 2.0 * TINY),
            (1.0, TINY, (0.0, 4.0 * TINY), 2.0 * TINY),
            (3e300, -1e300, (-1e300, 1e300), 0.0),
            (3e300, 1e300, (-1e300, 1e300), 1e300),
        ] {
            let found = BoundsRule::Midpoint.judged(mutant, parent, bounds);
            assert_eq!(found.to_bits(), f64::to_bits(expected), "{mutant} {parent} {bounds:?}");
        }
    }

    fn faulty(fault: Fault) -> Driver {
        let mut driver = Driver::default();
        driver.reading = Reading(Some(fault));
        driver
    }

    /// Without midpoint the Rust runs as it stands: no reading of midpoint makes a difference.
    #[test]
    fn clamp_is_untouched() {
        none_shows_without(b" midpoint\n", &FAULTS, faulty);
    }

    #[test]
    fn each_fault_is_noticed() {
        each_is_noticed(&FAULTS, faulty);
    }
}
