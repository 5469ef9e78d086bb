//! How large an entry may be: a second reading of document 02, W8, which the Rust does not have. The reader of kept files asks
//! it of every entry, and what the Rust and `midpoint` make of a sound state must keep to it.

use crate::campaign::Campaign;
use crate::counts::Counts;
use crate::faults::Chosen;
use crate::judge::FLOAT_LIMIT;
use crate::sampler::de::Probe;

/// "An entry over 4e300 in size": the double nearest to that.
pub const LIMIT: f64 = 4e300;

/// Bounds are at most so large, and an entry that was made keeps to them; only a file has larger ones.
const MOST_MADE: f64 = FLOAT_LIMIT;

/// A wrong reading of the limit, to show that a comparison can fail.
#[derive(Clone, Copy, Debug, PartialEq)]
pub enum Fault {
    /// It is a tenth of what it is, 4e299.
    Tenth,
    /// It is a half, 2e300.
    Half,
    /// An entry of 4e300 itself is over it.
    Excluded,
    /// There is none: an entry need only be finite, as before W8.
    Unlimited,
    /// It is one above alone: an entry below 0 need only be finite.
    Above,
    /// It is one below alone.
    Below,
    /// It is for parents alone.
    Parents,
    /// It is for candidates alone.
    Candidates,
}

pub const FAULTS: [(&str, Fault); 8] = [
    ("limit-4e299", Fault::Tenth),
    ("limit-2e300", Fault::Half),
    ("limit-excluded", Fault::Excluded),
    ("unlimited", Fault::Unlimited),
    ("above-alone", Fault::Above),
    ("below-alone", Fault::Below),
    ("parents-alone", Fault::Parents),
    ("candidates-alone", Fault::Candidates),
];

/// Every driver made from now on reads the limit so.
pub static CHOSEN: Chosen<Fault> = Chosen::none();

/// Whose entry it is.
#[derive(Clone, Copy, Debug, PartialEq)]
pub enum Whose {
    Parent,
    Candidate,
}

/// How a driver reads the limit: rightly, or with a fault.
#[derive(Clone, Copy)]
pub struct Reading(pub(crate) Option<Fault>);

impl Default for Reading {
    fn default() -> Self {
        Self(CHOSEN.get())
    }
}

impl Reading {
    /// Whether an entry may stand in a sound state: a number of at most 4e300 in size.
    pub fn fits(self, entry: f64, whose: Whose) -> bool {
        let limit = match self.0 {
            Some(Fault::Tenth) => 4e299,
            Some(Fault::Half) => 2e300,
            Some(Fault::Excluded) => LIMIT.next_down(),
            Some(Fault::Unlimited) => f64::MAX,
            Some(Fault::Above) if entry < 0.0 => f64::MAX,
            Some(Fault::Below) if entry > 0.0 => f64::MAX,
            Some(Fault::Parents) if whose == Whose::Candidate => f64::MAX,
            Some(Fault::Candidates) if whose == Whose::Parent => f64::MAX,
            _ => LIMIT,
        };
        entry.abs() <= limit
    }

    /// With a fault a file may have brought entries on which nothing is promised.
    pub fn is_right(self) -> bool {
        self.0.is_none()
    }
}

/// Every entry of a state is a number of at most 4e300 in size; of at most 1e300 where none came from a file.
pub fn assert_small(c: &Campaign, counts: &mut Counts) {
    let limit = if c.restored { LIMIT } else { MOST_MADE };
    for entry in c.sampler.probe().entries() {
        assert!(!c.limits.is_right() || entry.abs() <= limit, "an entry is {entry:e}");
        counts.largest_entry = counts.largest_entry.max(entry.abs());
    }
}

/// Whether a state has an entry that no sampler makes.
pub fn has_unmade(p: &Probe<'_>) -> bool {
    p.entries().any(|entry| entry.abs() > MOST_MADE)
}

/// Whether a Float dimension has a bound near the largest.
pub fn has_extreme_bounds(p: &Probe<'_>) -> bool {
    let near = |bound: f64| bound.abs() >= 0.9 * MOST_MADE;
    p.bounds().iter().any(|&(low, high)| near(low) || near(high))
}

/// A mutant's entry, before it is judged: "no sample call on a sound state makes a NaN entry".
pub fn count_mutant(entry: f64, c: &Campaign, counts: &mut Counts) {
    assert!(!c.limits.is_right() || entry.is_finite(), "a mutant's entry is {entry}");
    counts.mutants_over += u64::from(entry.abs() > LIMIT);
    counts.mutants_far += u64::from(entry.abs() > 5.0 * LIMIT);
    counts.largest_mutant = counts.largest_mutant.max(entry.abs());
}

#[cfg(test)]
mod tests {
    use super::*;
    use crate::compare::expected;
    use crate::driver::Driver;
    use crate::faults::tests::each_is_noticed;

    fn fits(fault: Option<Fault>, entry: f64) -> [bool; 2] {
        [Whose::Parent, Whose::Candidate].map(|whose| Reading(fault).fits(entry, whose))
    }

    /// By hand, from document 02's words.
    #[test]
    fn the_limit_by_hand() {
        for entry in [0.0, -0.0, 5e-324, 1e300, 3e300, LIMIT.next_down(), LIMIT] {
            assert_eq!(fits(None, entry), [true; 2], "{entry:e}");
            assert_eq!(fits(None, -entry), [true; 2], "-{entry:e}");
        }
        for entry in [LIMIT.next_up(), 5e300, f64::MAX, f64::INFINITY, f64::NAN] {
            assert_eq!(fits(None, entry), [false; 2], "{entry:e}");
            assert_eq!(fits(None, -entry), [false; 2], "-{entry:e}");
        }
        assert_eq!(LIMIT, 4.0 * FLOAT_LIMIT);
    }

    /// What each wrong reading makes of an entry on which it parts from the right one: a parent's, and a candidate's.
    #[test]
    fn each_fault_by_hand() {
        let past = LIMIT.next_up();
        for (fault, entry, expected) in [
            (Fault::Tenth, 5e299, [false; 2]),
            (Fault::Half, -3e300, [false; 2]),
            (Fault::Excluded, LIMIT, [false; 2]),
            (Fault::Unlimited, f64::MAX, [true; 2]),
            (Fault::Above, -past, [true; 2]),
            (Fault::Below, past, [true; 2]),
            (Fault::Parents, past, [false, true]),
            (Fault::Candidates, -past, [true, false]),
        ] {
            assert_eq!(fits(Some(fault), entry), expected, "{fault:?}");
            assert_ne!(fits(None, entry), expected, "{fault:?}");
            assert_eq!(fits(Some(fault), f64::NAN), [false; 2], "{fault:?}");
            assert_eq!(fits(Some(fault), f64::NEG_INFINITY), [false; 2], "{fault:?}");
        }
    }

    /// What the limit is for: on parents of the largest size, which were sound before W8, the Rust makes NaN entries.
    #[test]
    fn the_rust_makes_nan_without_the_limit() {
        let call = |trial: u64| format!("sample {trial} float 0000000000000000 3ff0000000000000 lin -\n");
        let calls = |trials: std::ops::Range<u64>| trials.map(call).collect::<String>();
        let told = |trials: std::ops::Range<u64>| {
            let one = |trial: u64| format!("tell {trial} 3ff0000000000000\n");
            trials.map(one).collect::<String>()
        };
        let set_up = "new 4000000000000000 3ff0000000000000 current-to-best1 4 1\n";
        let begun = format!("{set_up}{}{}{}save\n", calls(0..5), told(1..5), call(5));
        // The entries of the four parents in the file, of either sign in turn.
        let parents = [(296, "7f"), (312, "ff"), (336, "7f"), (360, "ff")];
        let puts = parents.map(|(offset, sign)| format!("put {offset} ffffffffffffef{sign}\n"));
        let worse = told(5..9).replace("3ff", "400");
        let script = format!(
            "{begun}{}restore\n{}{worse}{}state\n",
            puts.concat(),
            calls(6..9),
            call(9)
        );
        let mut driver = Driver::default();
        driver.limits = Reading(Some(Fault::Unlimited));
        expected(&mut driver, script.as_bytes());
        assert!(driver.probe().unwrap().entries().any(f64::is_nan));
        let answers = expected(&mut Driver::default(), script.as_bytes());
        assert!(String::from_utf8(answers).unwrap().contains("refused 13\n"));
    }

    /// Each wrong reading is noticed by few calls.
    #[test]
    fn each_fault_is_noticed() {
        each_is_noticed(&FAULTS, |fault| {
            let mut driver = Driver::default();
            driver.limits = Reading(Some(fault));
            driver
        });
    }
}
