//! The sampler: a state in memory of its own, and the calls on it.

use std::ffi::CStr;
use std::fmt;

use crate::ffi;
use crate::layout;
use crate::{CompletedTrial, Distribution, ParamValue, Refusal, SamplerBuilder};

/// The differential evolution sampler. Cloning it clones the whole state, generator included: both go on alike. It may
/// go to another thread, and be looked at from several.
#[derive(Clone)]
pub struct Sampler {
    pub(crate) state: Box<ffi::DeState>,
}

/// A setting, and how many numbers the generator gave for it.
#[non_exhaustive]
#[derive(Clone, Copy, Debug, PartialEq)]
pub struct Sampled {
    /// What the trial runs with, in this dimension.
    pub setting: ParamValue,
    /// How many numbers the generator gave for it.
    pub draws: u64,
}

/// What the closed generations have made.
#[non_exhaustive]
#[derive(Clone, Debug, PartialEq)]
pub struct Look {
    /// The best slot.
    pub best: usize,
    /// What the best slot holds: a setting for each dimension, in their order.
    pub settings: Vec<ParamValue>,
    /// Each slot's value.
    pub values: Vec<f64>,
    /// How many generations have closed.
    pub closed: u64,
    /// How many have closed since the least of these values last became numerically smaller: a tie is no change, nor is
    /// a zero of the other sign. 0 at the first closing.
    pub idle: u64,
}

impl Look {
    /// The best slot's value.
    ///
    /// # Panics
    /// Where `best` is no place of `values`: of no look that a sampler gave.
    pub fn best_value(&self) -> f64 {
        self.values[self.best]
    }
}

impl Sampler {
    /// A set-up with the original's defaults.
    pub fn builder() -> SamplerBuilder {
        SamplerBuilder::default()
    }

    /// The next setting of a trial: its dimensions in the order in which the first trial asked for them.
    ///
    /// A refusal leaves the sampler as it was. The history is read and not kept; of two entries with one number the
    /// last counts, whatever its state.
    ///
    /// The rule for callers: ask for all settings of a trial in one go, with no other trial's call in between and the
    /// same history lent to each call; the first trial has asked for everything before any other trial calls. Never use a
    /// trial number again, not for a second attempt either. Tell every trial once it has ended, a killed one as
    /// failed. docs/FINDINGS.md shows what goes wrong otherwise.
    ///
    /// - After the first trial the lent distribution does not decide the answer. It is judged (refusals 4 to 7), and the
    ///   setting is decoded by the one that the first trial lent. Past the last dimension it is drawn from the lent one.
    /// - A generation closes in the call that finds the results of its first N trials in the lent history. So a caller
    ///   that runs one trial at a time may lend the last N results alone.
    /// - A generation waits for a trial that is not told: beyond its N trials come extras, which do not compete, and the
    ///   65th is refused by [`Refusal::ExtraTrials`]. Telling the missing trial frees it; one that was killed is told as
    ///   [`CompletedTrial::failed`].
    ///
    /// ```
    /// use emkhurtov::{CompletedTrial, Distribution, ParamValue, Refusal, Sampler};
    /// let mut sampler = Sampler::builder().seed(7).build()?;
    /// let depth = Distribution::int(1, 64);
    /// let first = sampler.sample(&depth, 0, &[])?;
    /// assert!(matches!(first.setting, ParamValue::Int(1..=64)));
    /// let nan = [CompletedTrial::new(0, f64::NAN)];
    /// assert_eq!(sampler.sample(&depth, 1, &nan), Err(Refusal::HistoryNan));
    /// let failed = [CompletedTrial::failed(0, f64::NAN)];
    /// assert!(sampler.sample(&depth, 1, &failed).is_ok());
    /// # Ok::<(), Refusal>(())
    /// ```
    pub fn sample(
        &mut self,
        distribution: &Distribution,
        trial: u64,
        history: &[CompletedTrial],
    ) -> Result<Sampled, Refusal> {
        let call = ffi::DeCall {
            trial,
            distribution: distribution.lent(),
        };
        // SAFETY: both pointers come from references, and a slice's pointer is not null, an empty one's either.
        let answer = unsafe { ffi::de_sample(&mut *self.state, call, history.as_ptr(), history.len()) };
        match setting_of(&answer) {
            Some(setting) => Ok(Sampled {
                setting,
                draws: answer.draws,
            }),
            None if answer.kind == ffi::REFUSED => Err(Refusal::numbered(answer.refusal)),
            None => unreachable!("a call is answered or refused, and this is kind {}", answer.kind),
        }
    }

    /// What the closed generations have made; `None` before the first closing. It asks the library once for the values
    /// and once for each dimension of the best slot.
    ///
    /// ```
    /// # use emkhurtov::{Refusal, Sampler};
    /// let sampler = Sampler::builder().build()?;
    /// assert_eq!(sampler.look(), Ok(None));
    /// # Ok::<(), Refusal>(())
    /// ```
    pub fn look(&self) -> Result<Option<Look>, Refusal> {
        // SAFETY: the pointer comes from a reference.
        let look = unsafe { ffi::de_look(&*self.state) };
        match look.kind {
            ffi::LOOK_BEST => Ok(Some(Look {
                best: look.best as usize,
                settings: self.slot_settings(look.best as usize)?.unwrap_or_default(),
                values: look.values[..look.n as usize].to_vec(),
                closed: look.closed,
                idle: look.idle,
            })),
            ffi::LOOK_NOTHING => Ok(None),
            ffi::LOOK_REFUSED => Err(Refusal::numbered(look.refusal)),
            kind => unreachable!("a look has three kinds, and this is {kind}"),
        }
    }

    /// What a slot holds: a setting for each dimension, in their order, decoded as [`Sampler::sample`] decodes. `None`
    /// where there is no such slot, and before the first closing there is none.
    ///
    /// ```
    /// use emkhurtov::{CompletedTrial, Distribution, Refusal, Sampler};
    /// let mut sampler = Sampler::builder().population_size(4).build()?;
    /// let depth = Distribution::int(1, 64);
    /// let mut history = Vec::new();
    /// let mut tried = Vec::new();
    /// for trial in 0..6 {
    ///     tried.push(sampler.sample(&depth, trial, &history)?.setting);
    ///     history.push(CompletedTrial::new(trial, 1.0));
    /// }
    /// // The first generation's trials were 1 to 4, one for each slot.
    /// assert_eq!(sampler.slot_settings(2)?, Some(vec![tried[3]]));
    /// assert_eq!(sampler.slot_settings(4)?, None);
    /// # Ok::<(), Refusal>(())
    /// ```
    pub fn slot_settings(&self, slot: usize) -> Result<Option<Vec<ParamValue>>, Refusal> {
        let mut settings = Vec::new();
        for dimension in 0..ffi::MAX_DIMENSIONS as u64 {
            // SAFETY: the pointer comes from a reference.
            let answer = unsafe { ffi::de_slot_setting(&*self.state, slot as u64, dimension) };
            match setting_of(&answer) {
                Some(setting) => settings.push(setting),
                None if answer.kind == ffi::NOTHING => break,
                None if answer.kind == ffi::REFUSED => return Err(Refusal::numbered(answer.refusal)),
                None => unreachable!("a slot has a setting or none, and this is kind {}", answer.kind),
            }
        }
        Ok((!settings.is_empty()).then_some(settings))
    }

    /// The state as it lies in memory, to be compared with another's: the same bytes go on alike.
    pub fn state_bytes(&self) -> &[u8] {
        let state: *const ffi::DeState = &*self.state;
        // SAFETY: the state is made of numbers without padding (layout.rs: its size is the sum of its fields').
        unsafe { std::slice::from_raw_parts(state.cast::<u8>(), size_of::<ffi::DeState>()) }
    }
}

/// The setting, where the answer has one.
fn setting_of(answer: &ffi::DeAnswer) -> Option<ParamValue> {
    match answer.kind {
        ffi::FLOAT => Some(ParamValue::Float(answer.real)),
        ffi::INT => Some(ParamValue::Int(answer.whole)),
        ffi::CHOICE => Some(ParamValue::Categorical(answer.choice)),
        _ => None,
    }
}

impl fmt::Debug for Sampler {
    fn fmt(&self, f: &mut fmt::Formatter<'_>) -> fmt::Result {
        let s = &self.state;
        f.debug_struct("Sampler")
            .field("dimensions", &s.n_dims)
            .field("slots", &s.n)
            .field("open trials", &s.n_trials)
            .field("closed", &s.closed)
            .field("idle", &s.idle)
            .finish_non_exhaustive()
    }
}

/// The double that a setting stands for; 0 where the kinds differ. A ladder's setting has none: refused by
/// [`Refusal::LogScale`].
///
/// # Panics
/// Where the linked library lays its structs out otherwise than this crate.
///
/// ```
/// use emkhurtov::{Distribution, ParamValue, Refusal, to_internal};
/// assert_eq!(to_internal(&Distribution::int(1, 64), ParamValue::Int(8)), Ok(8.0));
/// assert_eq!(to_internal(&Distribution::int(3, 2), ParamValue::Int(8)), Err(Refusal::Bounds));
/// assert_eq!(to_internal(&Distribution::int_log(1, 64), ParamValue::Int(8)), Err(Refusal::LogScale));
/// ```
pub fn to_internal(distribution: &Distribution, setting: ParamValue) -> Result<f64, Refusal> {
    layout::check();
    let internal = ffi::de_to_internal(distribution.lent(), setting.lent());
    match internal.kind {
        ffi::INTERNAL_VALUE => Ok(internal.value),
        ffi::REFUSED => Err(Refusal::numbered(internal.refusal)),
        kind => unreachable!("a setting has a double or is refused, and this is kind {kind}"),
    }
}

/// The version of the library that is linked; this crate's own, where both are of one tree.
///
/// # Panics
/// Where the linked library's version is no text.
pub fn version() -> &'static str {
    // SAFETY: the text ends in a zero and stays.
    let text = unsafe { CStr::from_ptr(ffi::de_version()) };
    text.to_str().expect("a version is digits and points")
}
