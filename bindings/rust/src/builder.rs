//! The set-up, and its choices.

use crate::ffi;
use crate::layout;
use crate::{Refusal, Sampler};

/// How a mutant is made.
#[non_exhaustive]
#[derive(Clone, Copy, Debug, Default, PartialEq, Eq)]
pub enum DEStrategy {
    /// x1 + F (x2 - x3), of Storn and Price.
    #[default]
    Rand1,
    /// best + F (x1 - x2).
    Best1,
    /// x + F (best - x) + F (x1 - x2).
    CurrentToBest1,
}

/// The bounds rule: what a mutant's entry beyond a bound becomes in a candidate. An entry that a candidate has from its
/// parent is clamped under both. docs/GUIDE.md shows which to choose.
///
/// ```
/// use emkhurtov::{BoundsRule, CompletedTrial, Distribution, Refusal, Sampler};
/// // The best quota is near its limit. How many of 200 trials run exactly at the limit?
/// let at_the_limit = |rule| {
///     let quota = Distribution::float(8.0, 256.0);
///     let mut sampler = Sampler::builder().population_size(8).seed(3).bounds_rule(rule).build()?;
///     let mut history = Vec::new();
///     let mut count = 0;
///     for trial in 0..200 {
///         let x = sampler.sample(&quota, trial, &history)?.setting.as_f64().expect("a double was asked for");
///         count += usize::from(x == 256.0);
///         history.push(CompletedTrial::new(trial, (x - 250.0) * (x - 250.0)));
///     }
///     Ok::<_, Refusal>(count)
/// };
/// // Of the seeds 0 to 4 this is the worst for clamp: the others have 12 to 22. Midpoint has none with any of them.
/// assert_eq!(at_the_limit(BoundsRule::Clamp)?, 163);
/// assert_eq!(at_the_limit(BoundsRule::Midpoint)?, 0);
/// # Ok::<(), Refusal>(())
/// ```
#[non_exhaustive]
#[derive(Clone, Copy, Debug, Default, PartialEq, Eq)]
pub enum BoundsRule {
    /// The bound itself, as in the original: candidates pile up there.
    #[default]
    Clamp,
    /// It is drawn in, to half the sum of the parent's entry and that bound (the sum is rounded, then its half), and
    /// then clamped. A sampler of this rule cannot be saved yet ([`Sampler::save`](crate::Sampler::save)).
    Midpoint,
}

/// The set-up. The defaults are the original's: F = 0.8, CR = 0.9, Rand1, a size that follows from the dimensions, clamp;
/// the seed is 0, since nothing is seeded at random.
#[derive(Clone, Copy, Debug)]
pub struct SamplerBuilder {
    mutation_factor: f64,
    crossover_rate: f64,
    strategy: DEStrategy,
    population_size: Option<u64>,
    seed: u64,
    bounds_rule: BoundsRule,
}

impl Default for SamplerBuilder {
    fn default() -> Self {
        SamplerBuilder {
            mutation_factor: 0.8,
            crossover_rate: 0.9,
            strategy: DEStrategy::Rand1,
            population_size: None,
            seed: 0,
            bounds_rule: BoundsRule::Clamp,
        }
    }
}

impl SamplerBuilder {
    /// The number of slots: raised to 4, refused over 160.
    pub fn population_size(mut self, size: u64) -> Self {
        self.population_size = Some(size);
        self
    }

    /// F, 0 to 2.
    pub fn mutation_factor(mut self, f: f64) -> Self {
        self.mutation_factor = f;
        self
    }

    /// CR, 0 to 1.
    pub fn crossover_rate(mut self, cr: f64) -> Self {
        self.crossover_rate = cr;
        self
    }

    /// How a mutant is made.
    pub fn strategy(mut self, strategy: DEStrategy) -> Self {
        self.strategy = strategy;
        self
    }

    /// Where the generator starts. One seed, one campaign: the same calls are answered alike.
    pub fn seed(mut self, seed: u64) -> Self {
        self.seed = seed;
        self
    }

    /// What a mutant's entry beyond a bound becomes. A sampler of [`BoundsRule::Midpoint`] cannot be saved yet
    /// ([`Sampler::save`]).
    pub fn bounds_rule(mut self, rule: BoundsRule) -> Self {
        self.bounds_rule = rule;
        self
    }

    /// A fresh sampler, or refusal 1, 2 or 3.
    ///
    /// # Panics
    /// Where the linked library lays its structs out otherwise than this crate.
    ///
    /// ```
    /// use emkhurtov::{Refusal, Sampler};
    /// assert!(Sampler::builder().population_size(160).build().is_ok());
    /// assert_eq!(Sampler::builder().population_size(161).build().err(), Some(Refusal::PopulationSize));
    /// assert_eq!(Sampler::builder().mutation_factor(f64::NAN).build().err(), Some(Refusal::MutationFactor));
    /// ```
    pub fn build(self) -> Result<Sampler, Refusal> {
        layout::check();
        let setup = ffi::DeSetup {
            mutation_factor: self.mutation_factor,
            crossover_rate: self.crossover_rate,
            strategy: self.strategy.lent(),
            sized: u64::from(self.population_size.is_some()),
            population_size: self.population_size.unwrap_or(0),
            seed: self.seed,
            bounds_rule: self.bounds_rule.lent(),
        };
        let mut state = layout::blank_state();
        // SAFETY: the pointer is the box's, initialised, of the layout that was checked above.
        let answer = unsafe { ffi::de_new(&mut *state, setup) };
        match answer.kind {
            ffi::MADE => Ok(Sampler { state }),
            ffi::REFUSED => Err(Refusal::numbered(answer.refusal)),
            kind => unreachable!("a set-up is made or refused, and this is kind {kind}"),
        }
    }
}

impl DEStrategy {
    pub(crate) fn lent(self) -> u64 {
        match self {
            DEStrategy::Rand1 => 0,
            DEStrategy::Best1 => 1,
            DEStrategy::CurrentToBest1 => 2,
        }
    }
}

impl BoundsRule {
    pub(crate) fn lent(self) -> u64 {
        match self {
            BoundsRule::Clamp => 0,
            BoundsRule::Midpoint => 1,
        }
    }
}
