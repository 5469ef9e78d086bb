//! A campaign. Its calls are the Rust's as it stands, but where a ladder has a part in one, and under midpoint: the Rust has
//! neither.

use std::collections::HashSet;

use crate::distribution::Distribution;
use crate::entries;
use crate::ladder;
use crate::midpoint::BoundsRule;
use crate::param::ParamValue;
use crate::reader::Plain;
use crate::sampler::de::{DESampler, DEStrategy, by_ladder, by_midpoint};
use crate::sampler::{CompletedTrial, Sampler};
use crate::script::SetUp;

/// A sampler that has been set up, and what is kept beside it.
pub struct Campaign {
    pub sampler: DESampler,
    pub strategy: DEStrategy,
    pub size: Option<u64>,
    pub f: f64,
    pub cr: f64,
    pub seed: u64,
    pub rule: BoundsRule,
    /// Closed generations, stopping at 4,294,967,295.
    pub closed: u32,
    /// Those since the least value of all slots last became numerically smaller, likewise.
    pub idle: u32,
    /// The least of the results that all its closings counted; a file has no results.
    pub counted: Option<f64>,
    /// Trials that were open once, for counting alone.
    pub seen: HashSet<u64>,
    /// The history was cleared since the last closing, for counting alone.
    pub cleared: bool,
    /// It comes from a kept file, for counting alone.
    pub restored: bool,
    /// How the file's entries were judged: what is asserted of them.
    pub limits: entries::Reading,
}

impl Campaign {
    /// A sampler that has been set up.
    pub fn new(sampler: DESampler, setup: &SetUp) -> Self {
        Self {
            sampler,
            strategy: setup.strategy,
            size: setup.size,
            f: setup.f,
            cr: setup.cr,
            seed: setup.seed,
            rule: setup.rule,
            closed: 0,
            idle: 0,
            counted: Some(f64::INFINITY),
            seen: HashSet::new(),
            cleared: false,
            restored: false,
            limits: entries::Reading::default(),
        }
    }

    /// A sampler in a state that was read from a file.
    pub fn of(plain: Plain) -> Self {
        let setup = plain.setup.clone();
        Self {
            closed: plain.closed,
            idle: plain.idle,
            counted: None,
            ..Self::new(DESampler::of(plain), &setup)
        }
    }

    /// The Rust as it is, or a copy of its functions: under midpoint, or where a dimension or the lent distribution is a ladder.
    pub fn sample(&self, d: &Distribution, trial: u64, lent: &[CompletedTrial]) -> ParamValue {
        let ladder = ladder::is_ladder(d) || ladder::among(&self.sampler.probe());
        match self.rule {
            BoundsRule::Midpoint => by_midpoint::Called(&self.sampler).sample(d, trial, lent),
            BoundsRule::Clamp if ladder => by_ladder::Called(&self.sampler).sample(d, trial, lent),
            BoundsRule::Clamp => self.sampler.sample(d, trial, lent),
        }
    }

    /// The sampler copied, and everything that is kept beside it.
    pub fn copy(&self) -> Self {
        Self {
            sampler: self.sampler.copy(),
            seen: self.seen.clone(),
            ..*self
        }
    }
}
