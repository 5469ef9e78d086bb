//! A campaign for each seed, all at once.

use std::ops::RangeInclusive;
use std::thread;

/// What the campaigns of these seeds come to, each in a thread of its own: samplers share nothing.
pub fn each_seed<T: Send, E: Send>(
    seeds: RangeInclusive<u64>,
    campaign: impl Fn(u64) -> Result<T, E> + Sync,
) -> Result<Vec<T>, E> {
    let campaign = &campaign;
    thread::scope(|scope| {
        let running: Vec<_> = seeds.map(|seed| scope.spawn(move || campaign(seed))).collect();
        let ended = running.into_iter().map(|thread| thread.join());
        ended
            .map(|campaign| campaign.expect("a campaign does not panic"))
            .collect()
    })
}
