//! The differential evolution sampler whose code is proved equal to a written definition (crates/exports of this
//! repository), behind safe types.
//!
//! A call needs 1.5 MB of stack (760 KB were measured for a restore, 440 KB for a campaign of sample and look calls, and the tests run with
//! 1.5 MB), which Rust's threads have unless they were told otherwise. Nothing is shared between samplers.
//!
//! A campaign asks the sampler for each trial's settings, measures, and lends the measured values back as the history:
//!
//! ```
//! use emkhurtov::{CompletedTrial, Distribution, Refusal, Sampler};
//!
//! let quota = Distribution::float(8.0, 256.0);
//! let mut sampler = Sampler::builder().population_size(8).seed(1).build()?;
//! let mut history = Vec::new();
//! for trial in 0..200 {
//!     let x = sampler.sample(&quota, trial, &history)?.setting.as_f64().expect("a double was asked for");
//!     history.push(CompletedTrial::new(trial, (x - 100.0) * (x - 100.0)));
//! }
//! let look = sampler.look()?.expect("generations have closed");
//! let best = look.settings[0].as_f64().expect("the dimension is a double's");
//! assert!(look.best_value() < 1.0 && (best - 100.0).abs() < 1.0);
//! # Ok::<(), Refusal>(())
//! ```
//!
//! A sampler with clamp and no ladder can be saved after each trial ([`Sampler::save`]) and restored after a restart ([`Sampler::restore`]);
//! examples/restart.rs does so. A history can be read from a metrics export ([`CompletedTrial::read_export`]).
//!
//! Every combination of a small space is listed by [`sweep`], for a disk model that is measured whole.
//!
//! A trial that was killed is told as [`CompletedTrial::failed`], one that was stopped early as
//! [`CompletedTrial::pruned`].
//!
//! Where the best setting lies near a bound, clamping piles trials up on that bound; [`BoundsRule::Midpoint`] draws
//! them in. Whole numbers whose ratio matters can be a ladder, [`Distribution::int_log`].

#![deny(missing_docs)]

mod builder;
mod ceiling;
mod export;
mod fault;
mod ffi;
#[cfg(test)]
mod handed_in;
mod layout;
mod refusal;
mod sampler;
mod saved;
mod sweep;
mod types;

pub use builder::{BoundsRule, DEStrategy, SamplerBuilder};
pub use ceiling::{MAX_DRAWS, draw_ceiling};
pub use export::ExportError;
pub use fault::ExportFault;
pub use refusal::Refusal;
pub use sampler::{Look, Sampled, Sampler, to_internal, version};
pub use saved::{FileRefusal, MAX_FILE};
pub use sweep::{MAX_COMBINATIONS, Sweep, SweepRefusal, sweep, sweep_into};
pub use types::{
    CategoricalDistribution, CompletedTrial, Distribution, FloatDistribution, IntDistribution, ParamValue, TrialState,
};
