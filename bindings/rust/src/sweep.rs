//! A sweep: every combination of the settings of a few dimensions.

use std::cmp::Ordering;
use std::error::Error;
use std::fmt;
use std::ops::Index;
use std::slice::ChunksExact;

use crate::ffi;
use crate::layout;
use crate::{Distribution, ParamValue, Refusal};

/// A sweep has no more combinations.
pub const MAX_COMBINATIONS: usize = 65_536;

/// Why a sweep was refused. The numbers from 16 on go on from those of [`ExportError`](crate::ExportError).
///
/// ```
/// use emkhurtov::{Distribution, Refusal, SweepRefusal, sweep};
/// let refusal = sweep(&[Distribution::float(0.0, 1.0), Distribution::int(3, 2)]).unwrap_err();
/// assert_eq!(refusal, SweepRefusal::Dimension { dimension: 1, refusal: Refusal::Bounds });
/// assert_eq!(refusal.number(), 4);
/// let refusal = sweep(&[Distribution::float(0.0, 1.0), Distribution::int(2, 3)]).unwrap_err();
/// assert_eq!((refusal, refusal.number()), (SweepRefusal::Unsweepable, 16));
/// ```
#[non_exhaustive]
#[derive(Clone, Copy, Debug, PartialEq, Eq, Hash)]
pub enum SweepRefusal {
    /// 4 to 7: a dimension's own refusal, of the first dimension that has one, also behind the 16th.
    Dimension {
        /// Its place among the dimensions, from 0.
        dimension: usize,
        /// [`Refusal::Bounds`], [`Refusal::LogScale`], [`Refusal::Step`] or [`Refusal::Choices`].
        refusal: Refusal,
    },
    /// 16: there is no dimension, there are more than 16, or one is a Float or a ladder
    /// ([`Distribution::int_log`]).
    Unsweepable,
    /// 17: there are more combinations than [`MAX_COMBINATIONS`], or than the lent memory holds, which [`sweep`] never
    /// meets.
    TooMany,
}

impl SweepRefusal {
    /// The refusal's number, 4 to 7, 16 or 17.
    pub fn number(self) -> u64 {
        match self {
            SweepRefusal::Dimension { refusal, .. } => refusal.number(),
            SweepRefusal::Unsweepable => ffi::UNSWEEPABLE,
            SweepRefusal::TooMany => ffi::TOO_MANY,
        }
    }
}

impl fmt::Display for SweepRefusal {
    fn fmt(&self, f: &mut fmt::Formatter<'_>) -> fmt::Result {
        let why = match self {
            SweepRefusal::Dimension { dimension, refusal } => {
                return write!(f, "dimension {dimension}, counted from 0: {refusal}");
            }
            SweepRefusal::Unsweepable => "there is no dimension, there are more than 16, or one is a Float or a ladder",
            SweepRefusal::TooMany => "there are more combinations than 65,536, or than the lent memory holds",
        };
        write!(f, "refusal {}: {why}", self.number())
    }
}

impl Error for SweepRefusal {}

/// Every combination of the settings of some dimensions, each of them once: [`sweep`] makes it. A combination is a
/// setting for each dimension, in their order.
#[derive(Clone, Debug, PartialEq)]
pub struct Sweep {
    settings: Vec<ParamValue>,
    n_dims: usize,
}

impl Sweep {
    /// How many combinations there are: at least 1, at most [`MAX_COMBINATIONS`].
    pub fn len(&self) -> usize {
        self.iter().len()
    }

    /// Never: each dimension has a setting.
    pub fn is_empty(&self) -> bool {
        self.settings.is_empty()
    }

    /// The combination at this place, from 0.
    pub fn get(&self, place: usize) -> Option<&[ParamValue]> {
        self.iter().nth(place)
    }

    /// The combinations in their order.
    pub fn iter(&self) -> ChunksExact<'_, ParamValue> {
        self.settings.chunks_exact(self.n_dims)
    }

    /// Where a combination stands, such as the settings of a campaign's trial over the same dimensions. `None` where the
    /// sweep does not have it: a campaign can give a high that no step meets, and it gives no other setting that the
    /// sweep lacks.
    ///
    /// ```
    /// use emkhurtov::{Distribution, ParamValue, SweepRefusal, sweep};
    /// let all = sweep(&[Distribution::categorical(2), Distribution::int_step(1, 11, 4)])?;
    /// assert_eq!(all.position(&[ParamValue::Categorical(1), ParamValue::Int(5)]), Some(4));
    /// assert_eq!(all.position(&[ParamValue::Categorical(1), ParamValue::Int(11)]), None);
    /// # Ok::<(), SweepRefusal>(())
    /// ```
    pub fn position(&self, settings: &[ParamValue]) -> Option<usize> {
        let (mut from, mut to) = (0, self.len());
        while from < to {
            let middle = from + (to - from) / 2;
            match order(&self[middle], settings) {
                Ordering::Less => from = middle + 1,
                Ordering::Equal => return (self[middle] == *settings).then_some(middle),
                Ordering::Greater => to = middle,
            }
        }
        None
    }
}

/// The order in which a sweep rises. A Float is in no sweep.
fn order(one: &[ParamValue], other: &[ParamValue]) -> Ordering {
    let number = |setting: &ParamValue| match *setting {
        ParamValue::Float(_) => None,
        ParamValue::Int(v) => Some(v),
        ParamValue::Categorical(v) => i64::try_from(v).ok(),
    };
    one.iter().map(number).cmp(other.iter().map(number))
}

/// The combination at this place, from 0; it panics where there is none.
impl Index<usize> for Sweep {
    type Output = [ParamValue];

    fn index(&self, place: usize) -> &[ParamValue] {
        self.get(place).expect("a sweep has no combination past its last")
    }
}

impl<'a> IntoIterator for &'a Sweep {
    type Item = &'a [ParamValue];
    type IntoIter = ChunksExact<'a, ParamValue>;

    fn into_iter(self) -> Self::IntoIter {
        self.iter()
    }
}

/// Every combination of the settings of these dimensions, each of which is a Categorical or an Int without log scale.
///
/// Each combination stands once, and the last dimension changes fastest. Choices rise from 0. The values of an Int rise
/// from low by the step, or by 1 without one, and never pass high. A high that no step meets is left out, though the
/// entries of a campaign's candidates can be decoded to it.
///
/// Or it is refused: by the refusal from 4 to 7 of the first dimension that has one, then by
/// [`SweepRefusal::Unsweepable`], then by [`SweepRefusal::TooMany`].
///
/// The largest sweep takes 16 MB, and 8 MB more while it is made; [`sweep_into`] takes the memory that it is lent.
///
/// That the list has exactly these combinations in this order is proved; that the library's numbers become settings is
/// this crate's own part.
///
/// # Panics
/// Where the linked library lays its structs out otherwise than this crate.
///
/// ```
/// use emkhurtov::{Distribution, ParamValue, SweepRefusal, sweep};
/// let mode = Distribution::categorical(2);
/// let depth = Distribution::int_step(1, 11, 4);
/// let all = sweep(&[mode, depth])?;
/// let mut tried = Vec::new();
/// for settings in &all {
///     let &[ParamValue::Categorical(mode), ParamValue::Int(depth)] = settings else {
///         unreachable!("a choice and a whole number were asked for");
///     };
///     tried.push((mode, depth));
/// }
/// // No step from 1 meets 11.
/// assert_eq!(tried, [(0, 1), (0, 5), (0, 9), (1, 1), (1, 5), (1, 9)]);
/// assert_eq!(all.len(), 6);
/// assert_eq!(all[4], [ParamValue::Categorical(1), ParamValue::Int(5)]);
/// assert_eq!(sweep(&[Distribution::int(0, 65_536)]), Err(SweepRefusal::TooMany));
/// # Ok::<(), SweepRefusal>(())
/// ```
pub fn sweep(dims: &[Distribution]) -> Result<Sweep, SweepRefusal> {
    let n_dims = dims.len();
    let mut numbers = Vec::new();
    let mut answer = Err(SweepRefusal::TooMany);
    for room in ROOMS {
        numbers = vec![0; room * n_dims.min(ffi::MAX_DIMENSIONS)];
        answer = sweep_into(dims, &mut numbers);
        if answer != Err(SweepRefusal::TooMany) {
            break;
        }
    }
    let listed = &numbers[..answer? * n_dims];
    let of_dims = listed.iter().zip(dims.iter().cycle());
    let settings = of_dims.map(|(number, d)| setting(*number, d)).collect();
    Ok(Sweep { settings, n_dims })
}

/// The combinations that there is room for, tried in turn: a small sweep takes little memory.
const ROOMS: [usize; 3] = [1 << 10, 1 << 13, MAX_COMBINATIONS];

/// What a number of a combination stands for.
fn setting(number: i64, distribution: &Distribution) -> ParamValue {
    match distribution {
        Distribution::Categorical(_) => ParamValue::Categorical(number as u64),
        Distribution::Int(_) => ParamValue::Int(number),
        Distribution::Float(_) => unreachable!("a Float is in no sweep"),
    }
}

/// Lists the combinations ([`sweep`] says which) in lent memory: how many there are. Each is one number for each
/// dimension, a whole number itself or a choice from 0, side by side; no number past them is touched. Or it is refused as
/// [`sweep`] is, and by [`SweepRefusal::TooMany`] where the memory has fewer places than there are numbers; nothing is
/// written then.
///
/// # Panics
/// Where the linked library lays its structs out otherwise than this crate.
///
/// ```
/// use emkhurtov::{Distribution, SweepRefusal, sweep_into};
/// let dims = [Distribution::categorical(2), Distribution::int_step(1, 11, 4)];
/// let mut numbers = [-1; 14];
/// assert_eq!(sweep_into(&dims, &mut numbers), Ok(6));
/// assert_eq!(numbers, [0, 1, 0, 5, 0, 9, 1, 1, 1, 5, 1, 9, -1, -1]);
/// assert_eq!(sweep_into(&dims, &mut numbers[..11]), Err(SweepRefusal::TooMany));
/// ```
pub fn sweep_into(dims: &[Distribution], out: &mut [i64]) -> Result<usize, SweepRefusal> {
    layout::check();
    let lent: Vec<_> = dims.iter().map(Distribution::lent).collect();
    let answer = listed(&lent, out);
    match (answer.kind, answer.refusal) {
        (ffi::LISTED, _) => Ok(answer.count as usize),
        (ffi::REFUSED, ffi::UNSWEEPABLE) => Err(SweepRefusal::Unsweepable),
        (ffi::REFUSED, ffi::TOO_MANY) => Err(SweepRefusal::TooMany),
        (ffi::REFUSED, number @ 4..=7) => Err(SweepRefusal::Dimension {
            dimension: first_refused(&lent),
            refusal: Refusal::numbered(number),
        }),
        (kind, refusal) => {
            unreachable!("a sweep is listed or refused by 4 to 7, 16 or 17, and this is kind {kind}, refusal {refusal}")
        }
    }
}

fn listed(lent: &[ffi::DeDistribution], out: &mut [i64]) -> ffi::DeCount {
    // SAFETY: both pointers come from references, of which the exclusive one shares no byte with the other; a slice's
    // pointer is not null, an empty one's either.
    unsafe { ffi::de_sweep(lent.as_ptr(), lent.len(), out.as_mut_ptr(), out.len()) }
}

/// The place of the first dimension that has a refusal from 4 to 7 of its own: each is asked alone.
fn first_refused(lent: &[ffi::DeDistribution]) -> usize {
    let mut alone = lent.chunks(1).map(|d| listed(d, &mut []).refusal);
    let first = alone.position(|refusal| matches!(refusal, 4..=7));
    first.unwrap_or_else(|| unreachable!("a sweep is refused by 4 to 7, and none of its dimensions is"))
}

#[cfg(test)]
mod tests {
    use std::ffi::CStr;

    use super::*;

    #[test]
    fn the_texts_are_those_of_c() {
        for refusal in [SweepRefusal::Unsweepable, SweepRefusal::TooMany] {
            // SAFETY: the text ends in a zero and stays.
            let text = unsafe { CStr::from_ptr(ffi::de_refusal_text(refusal.number())) };
            let ours = format!("refusal {}: {}", refusal.number(), text.to_str().unwrap());
            assert_eq!(refusal.to_string(), ours);
        }
    }
}
