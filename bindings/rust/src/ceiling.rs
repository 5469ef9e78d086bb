//! How much one call can draw.

use crate::ffi;
use crate::{DEStrategy, Sampler};

/// No call draws more: 160 x (3,072 + 16), the ceiling of the largest sampler under Rand1.
///
/// ```
/// use emkhurtov::{DEStrategy, MAX_DRAWS, draw_ceiling};
/// assert_eq!(draw_ceiling(160, 16, DEStrategy::Rand1), MAX_DRAWS);
/// ```
pub const MAX_DRAWS: u64 = 494_080;

/// For a watchdog: what bounds the draws of a call of [`Sampler::sample`] that leaves `n` slots (0 before discovery has
/// ended), `n_dims` dimensions and this strategy, whatever the call did. [`Sampled::draws`](crate::Sampled::draws) is the
/// count of a call.
///
/// With N slots and D dimensions after it, a call draws at most
///
/// - N x (3,072 + D) under Rand1, N x (2,048 + D) under the other two, where it closes a generation or ends discovery,
///   as the first call of another trial than the first one does that is not refused;
/// - in any other case 1 where the trial already has a candidate, from an earlier call in this generation that was not
///   refused, and D where it has none;
/// - 0 where it is refused.
///
/// The answer is `n_dims` where `n` is 0, and the first of these otherwise. It is 0 where `n` is over 160 or `n_dims`
/// over 16: no sampler has these.
///
/// Ahead of the call that ends discovery, take the N and D that there will be then: a size that is set is N, raised to
/// 4; unset, N is the larger of 15 and 10 x the number of Float and Int dimensions.
///
/// ```
/// use emkhurtov::{DEStrategy, draw_ceiling};
/// // Two Float dimensions and one choice, no size: N is 20, D is 3.
/// assert_eq!(draw_ceiling(20, 3, DEStrategy::Rand1), 20 * (3072 + 3));
/// assert_eq!(draw_ceiling(20, 3, DEStrategy::Best1), 20 * (2048 + 3));
/// // Before discovery has ended.
/// assert_eq!(draw_ceiling(0, 3, DEStrategy::Rand1), 3);
/// assert_eq!(draw_ceiling(161, 3, DEStrategy::Rand1), 0);
/// ```
pub fn draw_ceiling(n: u64, n_dims: u64, strategy: DEStrategy) -> u64 {
    ffi::de_draw_ceiling(n, n_dims, strategy.lent())
}

impl Sampler {
    /// What bounds the draws of the call that left the sampler as it is: [`draw_ceiling`] of its N, D and strategy.
    ///
    /// Once discovery has ended it bounds the next call too. Before that it says nothing of the next call, which may
    /// end discovery.
    ///
    /// ```
    /// use emkhurtov::{Distribution, Refusal, Sampler};
    /// let mut sampler = Sampler::builder().population_size(8).build()?;
    /// let quota = Distribution::float(8.0, 256.0);
    /// let first = sampler.sample(&quota, 0, &[])?;
    /// assert_eq!((first.draws, sampler.draw_ceiling()), (1, 1));
    /// // A second trial ends discovery: a number for each of 8 slots.
    /// let second = sampler.sample(&quota, 1, &[])?;
    /// assert_eq!((second.draws, sampler.draw_ceiling()), (8, 8 * (3072 + 1)));
    /// # Ok::<(), Refusal>(())
    /// ```
    pub fn draw_ceiling(&self) -> u64 {
        let s = &self.state;
        ffi::de_draw_ceiling(s.n, s.n_dims, s.setup.strategy)
    }
}
