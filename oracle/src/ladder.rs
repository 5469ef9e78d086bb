//! The ladder: an Int dimension with the log flag. NOT the Rust's, which takes logarithms there: a second reading of document
//! 02, W9. Copies of the Rust's functions (build.rs) call it in the place of the three of common.rs that map a dimension;
//! where no ladder is and the rule is clamp, neither is run.

use std::cell::Cell;

use crate::distribution::{Distribution, IntDistribution};
use crate::faults::Chosen;
use crate::param::ParamValue;
use crate::rungs::{below, rung};
use crate::sampler::common;
use crate::sampler::de::Probe;

/// "Low at least 1, high at most 2,147,483,648."
pub const LOWEST: i64 = 1;
pub const HIGHEST: i64 = 2_147_483_648;

/// Low and high of a ladder.
pub type Ends = (i64, i64);

/// Those of a distribution that is one. Which of them pass is the judge's business.
pub fn ends(d: &Distribution) -> Option<Ends> {
    match d {
        Distribution::Int(d) if d.log_scale => Some((d.low, d.high)),
        _ => None,
    }
}

/// Whether a distribution is a ladder.
pub fn is_ladder(d: &Distribution) -> bool {
    ends(d).is_some()
}

/// Whether a state has a ladder among its dimensions.
pub fn among(p: &Probe<'_>) -> bool {
    (0..p.dims()).any(|dim| is_ladder(p.distribution(dim)))
}

/// A wrong reading of W9, to show that a comparison can fail.
#[derive(Clone, Copy, Debug, PartialEq)]
pub enum Fault {
    /// The inner lower bound is the least p with R(p) at least low.
    LowerUp,
    /// The inner upper bound is the largest p with R(p) at most high.
    UpperDown,
    /// The entry is cut off to p, not rounded.
    CutOff,
    /// R(p) is the whole number nearest to 2^(p/256).
    Nearest,
    /// R(p) is not clamped to low and high.
    Unclamped,
    /// A draw leaves the inner upper bound out.
    UpperLeftOut,
    /// Low 1 is refused.
    OneRefused,
    /// Low 0 passes.
    ZeroPasses,
    /// High 2,147,483,648 is refused.
    TopRefused,
    /// The writer lays a ladder as an Int without the log flag.
    Saved,
}

pub const FAULTS: [(&str, Fault); 10] = [
    ("lower-up", Fault::LowerUp),
    ("upper-down", Fault::UpperDown),
    ("cut-off", Fault::CutOff),
    ("nearest", Fault::Nearest),
    ("unclamped", Fault::Unclamped),
    ("upper-left-out", Fault::UpperLeftOut),
    ("one-refused", Fault::OneRefused),
    ("zero-passes", Fault::ZeroPasses),
    ("top-refused", Fault::TopRefused),
    ("ladder-saved", Fault::Saved),
];

/// Every driver made from now on reads W9 so.
pub static CHOSEN: Chosen<Fault> = Chosen::none();

/// How a driver reads W9: rightly, or with a fault.
#[derive(Clone, Copy)]
pub struct Reading(pub(crate) Option<Fault>);

impl Default for Reading {
    fn default() -> Self {
        Self(CHOSEN.get())
    }
}

/// Without a fault.
pub const RIGHT: Reading = Reading(None);

thread_local! {
    static READING: Cell<Reading> = const { Cell::new(RIGHT) };
}

/// In the place of the Rust's, in the copies: the inner bounds of a ladder as doubles. The entries of all candidates are drawn
/// between them and clamped to them, and that is the Rust's.
pub fn internal_bounds(d: &Distribution) -> Option<(f64, f64)> {
    let Some(ends) = ends(d) else {
        return common::internal_bounds(d);
    };
    let (lower, upper) = READING.get().inner_bounds(ends);
    Some((lower as f64, upper as f64))
}

/// In the place of the Rust's, in the copies: an entry decoded.
pub fn from_internal(entry: f64, d: &Distribution) -> ParamValue {
    match ends(d) {
        Some(ends) => ParamValue::Int(READING.get().decoded(entry, ends)),
        None => common::from_internal(entry, d),
    }
}

/// In the place of the Rust's, in the copies: what discovery gives, and a call past the last dimension.
pub fn sample_random(rng: &mut fastrand::Rng, d: &Distribution) -> ParamValue {
    match ends(d) {
        Some(ends) => ParamValue::Int(READING.get().drawn(rng, ends)),
        None => common::sample_random(rng, d),
    }
}

impl Reading {
    /// The calls of this thread read W9 so from now on.
    pub fn take_effect(self) {
        READING.set(self);
    }

    /// What row 5 leaves of Ints with the log flag: "5 now covers Float log and Int log with a step or with bounds outside these."
    pub fn passes(self, d: &IntDistribution) -> bool {
        let lowest = match self.0 {
            Some(Fault::OneRefused) => LOWEST + 1,
            Some(Fault::ZeroPasses) => LOWEST - 1,
            _ => LOWEST,
        };
        let highest = match self.0 {
            Some(Fault::TopRefused) => HIGHEST - 1,
            _ => HIGHEST,
        };
        d.step.is_none() && d.low >= lowest && d.high <= highest
    }

    /// "The inner lower bound is 0 for low 1, else the largest p with R(p) below low; the upper is the least p with R(p) at least
    /// high."
    pub fn inner_bounds(self, (low, high): Ends) -> (i64, i64) {
        let lower = match self.0 {
            Some(Fault::LowerUp) => below(low),
            _ if low <= 1 => 0,
            _ => below(low) - 1,
        };
        let upper = match self.0 {
            Some(Fault::UpperDown) => below(high + 1) - 1,
            _ => below(high),
        };
        (lower, upper)
    }

    /// "Decoding clamps the entry to the inner bounds, rounds to p, takes R(p) and clamps that to low and high."
    pub fn decoded(self, entry: f64, (low, high): Ends) -> i64 {
        let (lower, upper) = self.inner_bounds((low, high));
        let entry = entry.clamp(lower as f64, upper as f64);
        let position = match self.0 {
            Some(Fault::CutOff) => entry.trunc(),
            _ => entry.round(),
        };
        let rung = match self.0 {
            Some(Fault::Nearest) => (position / 256.0).exp2().round() as i64,
            _ => rung(position as i64),
        };
        match self.0 {
            Some(Fault::Unclamped) => rung,
            _ => rung.clamp(low, high),
        }
    }

    /// "Discovery, and a call past the last dimension, draws p by `i64` from the inner bounds, both included, and decodes it."
    pub fn drawn(self, rng: &mut fastrand::Rng, ends: Ends) -> i64 {
        let (lower, upper) = self.inner_bounds(ends);
        let last = match self.0 {
            Some(Fault::UpperLeftOut) => lower.max(upper - 1),
            _ => upper,
        };
        self.decoded(rng.i64(lower..=last) as f64, ends)
    }

    /// "The saved file's writer and reader give 13 for a ladder." No file that the reader is given can say that there is one.
    pub fn has_place(self, p: &Probe<'_>) -> bool {
        self.0 == Some(Fault::Saved) || !among(p)
    }
}
