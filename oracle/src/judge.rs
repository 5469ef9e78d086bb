//! The refusals 1 to 10. Written from document 01's table and document 02, not from the Rust, which has none of them: what
//! is refused is never asked of the Rust, and the totals count it apart.

use std::collections::HashSet;

use crate::distribution::Distribution;
use crate::history::History;
use crate::ladder;
use crate::sampler::CompletedTrial;
use crate::sampler::de::Probe;
use crate::script::SetUp;

/// At most so many dimensions.
pub const MOST_DIMS: usize = 16;

/// At most so many slots.
pub const MOST_SLOTS: u64 = 160;

/// At most so many extra trials a generation.
pub const MOST_EXTRAS: usize = 64;

/// Float bounds are at most so large in size.
pub const FLOAT_LIMIT: f64 = 1e300;

/// Int bounds and steps are at most so large in size.
pub const INT_LIMIT: u64 = 1 << 53;

/// A Float quotient (high - low)/step is at most so large.
pub const QUOTIENT_LIMIT: f64 = 4_294_967_295.0;

/// At most so many choices.
pub const MOST_CHOICES: usize = 65_535;

/// Refusals 1 to 3.
pub fn set_up(s: &SetUp) -> Option<u8> {
    if !(0.0..=2.0).contains(&s.f) {
        return Some(1);
    }
    if !(0.0..=1.0).contains(&s.cr) {
        return Some(2);
    }
    s.size.is_some_and(|size| size > MOST_SLOTS).then_some(3)
}

/// Refusals 4 to 7.
pub fn distribution(d: &Distribution) -> Option<u8> {
    distribution_by(ladder::RIGHT, d)
}

/// The same by a reading of which Ints with the log flag pass.
fn distribution_by(ladders: ladder::Reading, d: &Distribution) -> Option<u8> {
    match d {
        Distribution::Float(d) => {
            let bad = |bound: f64| !bound.is_finite() || bound.abs() > FLOAT_LIMIT;
            if bad(d.low) || bad(d.high) || d.low > d.high {
                return Some(4);
            }
            if d.log_scale {
                return Some(5);
            }
            d.step
                .is_some_and(|step| !step.is_finite() || step <= 0.0 || (d.high - d.low) / step > QUOTIENT_LIMIT)
                .then_some(6)
        }
        Distribution::Int(d) => {
            let bad = |bound: i64| bound.unsigned_abs() > INT_LIMIT;
            if bad(d.low) || bad(d.high) || d.low > d.high {
                return Some(4);
            }
            if d.log_scale {
                return (!ladders.passes(d)).then_some(5);
            }
            d.step.is_some_and(|step| step <= 0 || bad(step)).then_some(6)
        }
        Distribution::Categorical(d) => (d.n_choices == 0 || d.n_choices > MOST_CHOICES).then_some(7),
    }
}

/// Whether a history has every one of these trials.
pub fn has_all(history: &[CompletedTrial], trials: &[u64]) -> bool {
    let told: HashSet<u64> = history.iter().map(|t| t.id).collect();
    trials.iter().all(|trial| told.contains(trial))
}

/// Refusals 4 to 10 of a sample call; 8 is for complete entries alone (document 02).
pub fn sample(p: &Probe<'_>, d: &Distribution, trial: u64, history: &History, ladders: ladder::Reading) -> Option<u8> {
    if let Some(k) = distribution_by(ladders, d) {
        return Some(k);
    }
    if history.is_bad() {
        return Some(8);
    }
    if !p.active() {
        return (p.first() == Some(trial) && p.dims() == MOST_DIMS).then_some(9);
    }
    let full = p.trials().len() == p.size() + MOST_EXTRAS;
    let refused = full && p.progress(trial).is_none() && !has_all(history.lent(), &p.trials()[..p.size()]);
    refused.then_some(10)
}
