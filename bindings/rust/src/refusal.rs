//! Why a call was refused.

use std::error::Error;
use std::fmt;

/// A refusal of the sampler. A refused call has no setting, draws nothing and leaves the sampler as it was.
///
/// ```
/// use emkhurtov::{Refusal, Sampler};
/// let refusal = Sampler::builder().crossover_rate(2.0).build().unwrap_err();
/// assert_eq!(refusal, Refusal::CrossoverRate);
/// assert_eq!(refusal.to_string(), "refusal 2: the crossover rate is not between 0 and 1");
/// ```
#[non_exhaustive]
#[derive(Clone, Copy, Debug, PartialEq, Eq, Hash)]
pub enum Refusal {
    /// 0: the state is none that a sampler can have, such as one with an entry over 4e300 in size.
    StateNotSound,
    /// 1: the mutation factor F is NaN, below 0 or above 2.
    MutationFactor,
    /// 2: the crossover rate CR is NaN, below 0 or above 1.
    CrossoverRate,
    /// 3: the population size is over 160.
    PopulationSize,
    /// 4: a bound is not finite or over its limit (1e300, or 2^53 for whole numbers), or low is above high.
    Bounds,
    /// 5: log scale of a Float, or of an Int with a step or with bounds outside 1 to 2,147,483,648; in
    /// [`to_internal`](crate::to_internal) any log scale.
    LogScale,
    /// 6: a step is not finite, not above 0, over 2^53 for whole numbers, or gives more than 4,294,967,295 steps.
    Step,
    /// 7: no choices, or more than 65,535.
    Choices,
    /// 8: the value of a complete entry of the history is NaN.
    HistoryNan,
    /// 9: a 17th dimension of the first trial.
    Dimensions,
    /// 10: a 65th trial beyond the population in one generation.
    ExtraTrials,
}

const ALL: [Refusal; 11] = [
    Refusal::StateNotSound,
    Refusal::MutationFactor,
    Refusal::CrossoverRate,
    Refusal::PopulationSize,
    Refusal::Bounds,
    Refusal::LogScale,
    Refusal::Step,
    Refusal::Choices,
    Refusal::HistoryNan,
    Refusal::Dimensions,
    Refusal::ExtraTrials,
];

impl Refusal {
    /// The refusal's number, 0 to 10. The number 11 is unused since 0.9.0: no call gives it.
    pub fn number(self) -> u64 {
        self as u64
    }

    pub(crate) fn numbered(number: u64) -> Refusal {
        let place = usize::try_from(number).ok();
        match place.and_then(|i| ALL.get(i)) {
            Some(refusal) => *refusal,
            None => unreachable!("the library gives refusals 0 to 10, and this is {number}"),
        }
    }
}

impl fmt::Display for Refusal {
    fn fmt(&self, f: &mut fmt::Formatter<'_>) -> fmt::Result {
        let why = match self {
            Refusal::StateNotSound => "the state is none that a sampler can have",
            Refusal::MutationFactor => "the mutation factor is not between 0 and 2",
            Refusal::CrossoverRate => "the crossover rate is not between 0 and 1",
            Refusal::PopulationSize => "the population size is over 160",
            Refusal::Bounds => "a bound is not finite or over its limit, or low is above high",
            Refusal::LogScale => {
                "log scale of a Float, of an Int with a step or with bounds outside 1 to 2,147,483,648, or in to_internal"
            }
            Refusal::Step => "the step is not finite, not above 0, or gives too many steps",
            Refusal::Choices => "there are no choices, or more than 65,535",
            Refusal::HistoryNan => "the value of a complete entry of the history is NaN",
            Refusal::Dimensions => "the first trial asks for a 17th dimension",
            Refusal::ExtraTrials => "a 65th trial beyond the population asks in one generation",
        };
        write!(f, "refusal {}: {why}", self.number())
    }
}

impl Error for Refusal {}

#[cfg(test)]
mod tests {
    use std::ffi::CStr;

    use super::*;
    use crate::ffi::de_refusal_text;

    #[test]
    fn numbers_are_places() {
        for (place, refusal) in ALL.iter().enumerate() {
            assert_eq!(refusal.number(), place as u64);
            assert_eq!(Refusal::numbered(place as u64), *refusal);
        }
    }

    /// Of a number that no refusal has, the library says so.
    #[test]
    fn the_number_11_is_unused() {
        for number in [11, 18, u64::MAX] {
            // SAFETY: the text ends in a zero and stays.
            let text = unsafe { CStr::from_ptr(de_refusal_text(number)) };
            assert_eq!(text.to_str(), Ok("no refusal has this number"));
        }
        assert!(ALL.iter().all(|refusal| refusal.number() < 11));
    }

    #[test]
    #[should_panic(expected = "the library gives refusals 0 to 10, and this is 11")]
    fn the_number_11_is_never_given() {
        Refusal::numbered(11);
    }

    #[test]
    fn the_texts_are_those_of_c() {
        for refusal in ALL {
            // SAFETY: the text ends in a zero and stays.
            let text = unsafe { CStr::from_ptr(de_refusal_text(refusal.number())) };
            let ours = refusal.to_string();
            let (number, why) = ours.split_once(": ").unwrap();
            assert_eq!(number, format!("refusal {}", refusal.number()));
            assert_eq!(Ok(why), text.to_str());
        }
    }
}
