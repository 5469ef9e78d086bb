//! Walks once more through the draws of a closing, from the word that it met, by document 01's steps 3 and 4: for
//! counting, and as a check that the generator's word after the call is the one that those steps leave.

use crate::campaign::Campaign;
use crate::counts::Counts;
use crate::distribution::Distribution;
use crate::entries;
use crate::midpoint::BoundsRule;
use crate::sampler::de::{DEStrategy, Probe};

/// A closing with continuous dimensions answers from a candidate, so all of its draws are those of the new ones.
pub fn count(p: &Probe<'_>, c: &Campaign, word: u64, counts: &mut Counts) {
    let mut rng = fastrand::Rng::with_seed(word);
    let rand1 = matches!(c.strategy, DEStrategy::Rand1);
    let bounds = p.bounds();
    for slot in 0..p.size() {
        let mut taken = vec![slot];
        while taken.len() < if rand1 { 4 } else { 3 } {
            let index = rng.usize(0..p.size());
            if taken.contains(&index) {
                counts.rejected += 1;
            } else {
                taken.push(index);
                counts.best_drawn += u64::from(!rand1 && index == p.best());
            }
        }
        let own = rng.usize(0..bounds.len());
        for (j, &bounds) in bounds.iter().enumerate() {
            let parent = p.parent(slot).entries[j];
            // So half the sum is within them too, clamped or not, and drawing in a parent's own entry would change none. A file may
            // have others, and what is restored has clamp.
            let within = bounds.0 <= parent && parent <= bounds.1;
            assert!(
                c.rule == BoundsRule::Clamp || c.restored || within,
                "a parent within its bounds"
            );
            entries::count_mutant(mutant(p, c, &taken, j), c, counts);
            if j != own {
                let unit = rng.f64();
                counts.unit_below += u64::from(unit < c.cr);
                counts.unit_above += u64::from(unit > c.cr);
                if unit == c.cr {
                    let entry = c.rule.judged(mutant(p, c, &taken, j), parent, bounds);
                    counts.unit_equal += u64::from(entry != parent);
                }
                if unit >= c.cr {
                    continue;
                }
            }
            if c.rule == BoundsRule::Midpoint {
                count_drawn_in(mutant(p, c, &taken, j), parent, bounds, counts);
            }
        }
        for dim in 0..p.dims() {
            if let Distribution::Categorical(d) = p.distribution(dim) {
                rng.usize(0..d.n_choices);
            }
        }
    }
    assert_eq!(rng.word(), p.word(), "the draws of a closing");
}

/// A mutant's entry that is taken under midpoint, and whether another reading of document 02 would have changed it.
fn count_drawn_in(mutant: f64, parent: f64, (low, high): (f64, f64), counts: &mut Counts) {
    let judged = |rule: BoundsRule| rule.judged(mutant, parent, (low, high));
    let entry = judged(BoundsRule::Midpoint);
    let half = |bound: f64| (parent + bound) / 2.0;
    counts.drawn_low += u64::from(mutant < low);
    counts.drawn_high += u64::from(mutant > high);
    counts.drawn_otherwise += u64::from(entry != judged(BoundsRule::Clamp));
    counts.drawn_on_bound += u64::from((mutant == low || mutant == high) && half(mutant) != mutant);
    if mutant < low || mutant > high {
        let bound = mutant.clamp(low, high);
        counts.drawn_halves += u64::from(parent / 2.0 + bound / 2.0 != entry);
        counts.drawn_difference += u64::from(bound + (parent - bound) / 2.0 != entry);
    }
}

/// Step 3's entry: `taken` is the slot and then its indices.
fn mutant(p: &Probe<'_>, c: &Campaign, taken: &[usize], j: usize) -> f64 {
    let x = |k: usize| p.parent(taken[k]).entries[j];
    let best = p.parent(p.best()).entries[j];
    match c.strategy {
        DEStrategy::Rand1 => x(1) + c.f * (x(2) - x(3)),
        DEStrategy::Best1 => best + c.f * (x(1) - x(2)),
        DEStrategy::CurrentToBest1 => (x(0) + c.f * (best - x(0))) + c.f * (x(1) - x(2)),
    }
}
