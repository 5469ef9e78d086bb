//! The gateway's disk: what is tuned there, and a stand-in for the measurement.

use emkhurtov::{Distribution, ParamValue};

/// What a trial runs with.
#[derive(Clone, Copy)]
pub struct Settings {
    /// The noisy container's block quota, MB/s.
    pub quota: f64,
    /// How often dirty pages are flushed, ms.
    pub flush: i64,
    /// Requests in flight.
    pub depth: i64,
    /// none, mq-deadline, kyber or bfq, counted from 0.
    pub scheduler: i64,
}

/// The dimensions, in the order in which every trial asks for them. The scheduler is an Int, from the one that does least
/// to the one that does most, so that candidates inherit it: a choice is drawn anew each time (docs/GUIDE.md).
pub fn dimensions() -> [Distribution; 4] {
    [
        Distribution::float_step(8.0, 256.0, 0.5),
        Distribution::int_step(5, 500, 5),
        Distribution::int(1, 64),
        Distribution::int(0, 3),
    ]
}

impl Settings {
    /// A setting for each dimension, in their order. The scheduler may be a choice too.
    pub fn of(settings: &[ParamValue]) -> Option<Settings> {
        let [quota, flush, depth, scheduler] = *settings else {
            return None;
        };
        let choice = scheduler.as_choice().map(|c| c as i64);
        Some(Settings {
            quota: quota.as_f64()?,
            flush: flush.as_i64()?,
            depth: depth.as_i64()?,
            scheduler: scheduler.as_i64().or(choice)?,
        })
    }
}

/// The stand-in: how long the line controller waits for a write (99th percentile, ms). A small quota starves the
/// container, whose backlog then bursts; a large one takes the disk from its neighbours; the depth that suits depends on
/// the scheduler. Sums, products and quotients only, so that every machine gives the same bits.
pub fn measure(s: Settings) -> f64 {
    let (base, suits) = [(3.1, 6.0), (1.4, 18.0), (0.9, 12.0), (1.1, 30.0)][s.scheduler as usize];
    let quota = (s.quota - 92.0) / 48.0;
    let flush = (s.flush as f64 - 120.0) / 90.0;
    let depth = (s.depth as f64 - suits) / 10.0;
    base + 4.0 * quota * quota + 1.5 * flush * flush + depth * depth + 0.8 * quota * depth
}
