//! What is tuned, under the names of the Rust original.

use crate::ffi;

/// A Float distribution: `low..=high`, perhaps in steps from `low`.
#[derive(Clone, Copy, Debug, PartialEq)]
pub struct FloatDistribution {
    /// The least setting.
    pub low: f64,
    /// The largest.
    pub high: f64,
    /// Refused where true; it is here since the original has it.
    pub log_scale: bool,
    /// The step, counted from `low`, where there is one.
    pub step: Option<f64>,
}

/// An Int distribution: `low..=high`, perhaps in steps from `low`, or a ladder.
#[derive(Clone, Copy, Debug, PartialEq, Eq)]
pub struct IntDistribution {
    /// The least setting.
    pub low: i64,
    /// The largest.
    pub high: i64,
    /// Whether it is a ladder ([`Distribution::int_log`]), which has no step.
    pub log_scale: bool,
    /// The step, counted from `low`, where there is one.
    pub step: Option<i64>,
}

/// A choice among `n_choices`.
#[derive(Clone, Copy, Debug, PartialEq, Eq)]
pub struct CategoricalDistribution {
    /// How many choices there are, 1 to 65,535.
    pub n_choices: u64,
}

/// What a dimension ranges over.
#[derive(Clone, Copy, Debug, PartialEq)]
pub enum Distribution {
    /// Doubles.
    Float(FloatDistribution),
    /// Whole numbers.
    Int(IntDistribution),
    /// Choices.
    Categorical(CategoricalDistribution),
}

/// A setting.
#[derive(Clone, Copy, Debug, PartialEq)]
pub enum ParamValue {
    /// A double.
    Float(f64),
    /// A whole number.
    Int(i64),
    /// A choice, counted from 0.
    Categorical(u64),
}

/// The state of an entry of the history: how its trial ended. One that was pruned or that failed is incomplete.
#[repr(u64)]
#[derive(Clone, Copy, Debug, PartialEq, Eq)]
pub enum TrialState {
    /// It was measured to its end.
    Complete,
    /// It was stopped before its end.
    Pruned,
    /// It broke off.
    Failed,
}

/// An entry of the history: a trial that has ended, what was measured, and how it ended.
#[repr(C)]
#[derive(Clone, Copy, Debug, PartialEq)]
pub struct CompletedTrial {
    /// The trial's number, as it asked.
    pub number: u64,
    /// What was measured; less is better. Unless the state is [`TrialState::Complete`], it counts as [`f64::INFINITY`]
    /// whatever it is, and NaN is accepted.
    pub value: f64,
    /// How the trial ended.
    pub state: TrialState,
}

impl CompletedTrial {
    /// Trial `number` is complete and measured `value`.
    pub const fn new(number: u64, value: f64) -> Self {
        let state = TrialState::Complete;
        CompletedTrial { number, value, state }
    }

    /// Trial `number` was pruned, and `value` was its last figure.
    ///
    /// ```
    /// use emkhurtov::{CompletedTrial, Distribution, Refusal, Sampler};
    /// let mut sampler = Sampler::builder().population_size(4).build()?;
    /// let depth = Distribution::int(1, 64);
    /// for trial in 0..5 {
    ///     sampler.sample(&depth, trial, &[])?;
    /// }
    /// // The first generation's trials are 1 to 4.
    /// let history = [
    ///     CompletedTrial::new(1, 7.0),
    ///     CompletedTrial::pruned(2, 3.0),
    ///     CompletedTrial::failed(3, f64::NAN),
    ///     CompletedTrial::new(4, 5.0),
    /// ];
    /// sampler.sample(&depth, 5, &history)?;
    /// let look = sampler.look()?.expect("a generation has closed");
    /// assert_eq!(look.values, [7.0, f64::INFINITY, f64::INFINITY, 5.0]);
    /// # Ok::<(), Refusal>(())
    /// ```
    pub const fn pruned(number: u64, value: f64) -> Self {
        let state = TrialState::Pruned;
        CompletedTrial { number, value, state }
    }

    /// Trial `number` failed, and `value` was its last figure: [`f64::NAN`] will do where it had none.
    pub const fn failed(number: u64, value: f64) -> Self {
        let state = TrialState::Failed;
        CompletedTrial { number, value, state }
    }
}

impl Distribution {
    /// A Float distribution without a step.
    pub fn float(low: f64, high: f64) -> Self {
        Distribution::Float(FloatDistribution {
            low,
            high,
            log_scale: false,
            step: None,
        })
    }

    /// A Float distribution in steps from `low`.
    pub fn float_step(low: f64, high: f64, step: f64) -> Self {
        Distribution::Float(FloatDistribution {
            low,
            high,
            log_scale: false,
            step: Some(step),
        })
    }

    /// An Int distribution without a step.
    pub fn int(low: i64, high: i64) -> Self {
        Distribution::Int(IntDistribution {
            low,
            high,
            log_scale: false,
            step: None,
        })
    }

    /// An Int distribution in steps from `low`.
    pub fn int_step(low: i64, high: i64, step: i64) -> Self {
        Distribution::Int(IntDistribution {
            low,
            high,
            log_scale: false,
            step: Some(step),
        })
    }

    /// A ladder: an Int distribution with log scale, for numbers whose ratio matters and not their difference, such as
    /// queue depths. `low` is at least 1 and `high` at most 2,147,483,648, and a ladder has no step:
    /// [`Refusal::LogScale`](crate::Refusal::LogScale) otherwise.
    ///
    /// Its settings are its rungs, clamped to `low` and `high`: the whole parts of 2^(p/256), p being a position between
    /// its inner bounds (0 to 1,536 for 1 to 64). From each number up to its double there are 256 positions, so that 1 is
    /// drawn as often as 2 and 3 together, or 32 to 63. A whole number above 373 may be no rung: it is never a setting
    /// then, unless it is `low` or `high`. include/emkhurtov.h has all of it, docs/GUIDE.md when to choose it.
    ///
    /// A sampler with a ladder cannot be saved yet ([`Sampler::save`](crate::Sampler::save)).
    ///
    /// ```
    /// use emkhurtov::{Distribution, Refusal, Sampler};
    /// // How many of 10,000 settings that are drawn at random are below 8?
    /// let below_8 = |depth| {
    ///     let mut sampler = Sampler::builder().build()?;
    ///     sampler.sample(&depth, 0, &[])?;
    ///     sampler.sample(&depth, 1, &[])?;
    ///     let mut count = 0;
    ///     for _ in 0..10_000 {
    ///         // The only dimension has been asked for: what is asked for now is drawn.
    ///         let setting = sampler.sample(&depth, 1, &[])?.setting;
    ///         count += usize::from(setting.as_i64().expect("a whole number was asked for") < 8);
    ///     }
    ///     Ok::<_, Refusal>(count)
    /// };
    /// assert_eq!(below_8(Distribution::int_log(1, 64))?, 5_010);
    /// assert_eq!(below_8(Distribution::int(1, 64))?, 1_056);
    /// assert_eq!(below_8(Distribution::int_log(0, 64)), Err(Refusal::LogScale));
    /// # Ok::<(), Refusal>(())
    /// ```
    pub fn int_log(low: i64, high: i64) -> Self {
        Distribution::Int(IntDistribution {
            low,
            high,
            log_scale: true,
            step: None,
        })
    }

    /// A choice among `n_choices`.
    pub fn categorical(n_choices: u64) -> Self {
        Distribution::Categorical(CategoricalDistribution { n_choices })
    }

    pub(crate) fn lent(&self) -> ffi::DeDistribution {
        let mut d = ffi::DeDistribution {
            kind: ffi::CHOICE,
            low: 0.0,
            high: 0.0,
            whole_low: 0,
            whole_high: 0,
            log_scale: 0,
            stepped: 0,
            step: 0.0,
            whole_step: 0,
            n_choices: 0,
        };
        match *self {
            Distribution::Float(f) => {
                d.kind = ffi::FLOAT;
                d.low = f.low;
                d.high = f.high;
                d.log_scale = u64::from(f.log_scale);
                d.stepped = u64::from(f.step.is_some());
                d.step = f.step.unwrap_or(0.0);
            }
            Distribution::Int(i) => {
                d.kind = ffi::INT;
                d.whole_low = i.low;
                d.whole_high = i.high;
                d.log_scale = u64::from(i.log_scale);
                d.stepped = u64::from(i.step.is_some());
                d.whole_step = i.step.unwrap_or(0);
            }
            Distribution::Categorical(c) => d.n_choices = c.n_choices,
        }
        d
    }
}

impl ParamValue {
    /// The double of a Float setting.
    ///
    /// ```
    /// use emkhurtov::ParamValue;
    /// assert_eq!(ParamValue::Float(0.5).as_f64(), Some(0.5));
    /// assert_eq!(ParamValue::Int(3).as_f64(), None);
    /// ```
    pub const fn as_f64(self) -> Option<f64> {
        match self {
            ParamValue::Float(v) => Some(v),
            _ => None,
        }
    }

    /// The whole number of an Int setting.
    ///
    /// ```
    /// use emkhurtov::ParamValue;
    /// assert_eq!(ParamValue::Int(3).as_i64(), Some(3));
    /// assert_eq!(ParamValue::Categorical(3).as_i64(), None);
    /// ```
    pub const fn as_i64(self) -> Option<i64> {
        match self {
            ParamValue::Int(v) => Some(v),
            _ => None,
        }
    }

    /// The choice of a Categorical setting, counted from 0.
    ///
    /// ```
    /// use emkhurtov::ParamValue;
    /// assert_eq!(ParamValue::Categorical(3).as_choice(), Some(3));
    /// assert_eq!(ParamValue::Float(3.0).as_choice(), None);
    /// ```
    pub const fn as_choice(self) -> Option<u64> {
        match self {
            ParamValue::Categorical(v) => Some(v),
            _ => None,
        }
    }

    pub(crate) fn lent(self) -> ffi::DeSetting {
        let mut s = ffi::DeSetting {
            kind: ffi::CHOICE,
            real: 0.0,
            whole: 0,
            choice: 0,
        };
        match self {
            ParamValue::Float(v) => {
                s.kind = ffi::FLOAT;
                s.real = v;
            }
            ParamValue::Int(v) => {
                s.kind = ffi::INT;
                s.whole = v;
            }
            ParamValue::Categorical(v) => s.choice = v,
        }
        s
    }
}
