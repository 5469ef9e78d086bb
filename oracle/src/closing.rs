//! What a sample call did, read from the Rust's state before and after it: whether it closed a generation, the
//! counters that documents 01 and 02 add, and which branches it met.

use std::collections::{HashMap, HashSet};

use crate::campaign::Campaign;
use crate::counts::Counts;
use crate::distribution::Distribution;
use crate::draws;
use crate::entries;
use crate::history::History;
use crate::ladder;
use crate::midpoint::BoundsRule;
use crate::param::ParamValue;
use crate::rungs;
use crate::sampler::CompletedTrial;
use crate::sampler::de::{DEStrategy, Probe};
use crate::served::{count_random, count_served, is_choice};

/// What is noted before a call.
pub struct Before {
    pub draws: u64,
    word: u64,
    active: bool,
    /// How many trials were open, and whether the calling one was.
    open: usize,
    was_open: bool,
    best: usize,
    /// The open trials and the parents' values, where the call may close.
    trials: Vec<u64>,
    values: Vec<f64>,
}

impl Before {
    pub fn of(p: &Probe<'_>, trial: u64) -> Self {
        let may_close = p.active() && p.trials().len() >= p.size();
        let noted = |from: &[f64]| if may_close { from.to_vec() } else { Vec::new() };
        Self {
            draws: p.draws(),
            word: p.word(),
            active: p.active(),
            open: p.trials().len(),
            was_open: p.progress(trial).is_some(),
            best: p.best(),
            trials: if may_close { p.trials().to_vec() } else { Vec::new() },
            values: noted(p.values()),
        }
    }

    /// Counts what the call did.
    pub fn compare(
        &self,
        c: &mut Campaign,
        d: &Distribution,
        trial: u64,
        answer: &ParamValue,
        history: &History,
        counts: &mut Counts,
    ) {
        let p = c.sampler.probe();
        counts.calls += 1;
        counts.draws += p.draws() - self.draws;
        match answer {
            ParamValue::Float(_) => counts.float += 1,
            ParamValue::Int(_) => counts.int += 1,
            ParamValue::Categorical(_) => counts.choice += 1,
        }
        if !p.active() {
            counts.discovered += 1;
            count_random(d, answer, self.word, counts);
            return;
        }
        if !self.active {
            counts.discovery_ends += 1;
            count_space(&p, counts);
            let choices = p.bounds().len() < p.dims();
            counts.ends_15 += u64::from(c.size.is_none() && p.size() == 15);
            counts.ends_10n += u64::from(c.size.is_none() && p.size() > 15 && choices);
        }
        // No call but a closing one leaves fewer trials open than it met.
        let closes = p.trials().len() < self.open;
        let assigned = closes || !self.was_open;
        if assigned {
            let place = p.trials().len() - 1;
            counts.slots += u64::from(place < p.size());
            counts.extras += u64::from(place >= p.size());
            counts.extra_64 += u64::from(place == p.size() + 63);
            counts.first_again += u64::from(p.first() == Some(trial));
            counts.old_again += u64::from(!c.seen.insert(trial));
        } else {
            counts.later_calls += 1;
        }
        count_served(&p, d, trial, answer, self.word, counts);
        if !closes {
            counts.waiting += u64::from(self.active && self.open >= p.size());
            return;
        }
        p.assert_hidden_part();
        let results = results_of(&self.trials[..p.size()], history.lent());
        self.count_selection(&p, &results, counts);
        self.count_history(&p, &results, trial, history.lent(), counts);
        history.count_results(&self.trials[..p.size()], least(&results), counts);
        if !p.bounds().is_empty() {
            count_crossover(&p, counts);
            draws::count(&p, c, self.word, counts);
        }
        let first = self.values.is_empty();
        let smaller = least(p.values()) < least(&self.values);
        let idle = !first && !smaller;
        self.count_idle(&p, idle, c.idle, counts);
        // The same by the counted results alone: one of these is below every one before.
        if let Some(counted) = c.counted {
            assert!(first || smaller == results.iter().any(|&result| result < counted));
            c.counted = Some(counted.min(least(&results)));
        }
        counts.closings += 1;
        counts.closings_first += u64::from(first);
        counts.closings_later += u64::from(!first);
        let midpoint = c.rule == BoundsRule::Midpoint;
        counts.closings_midpoint += u64::from(midpoint);
        counts.closings_ladder += u64::from(ladder::among(&p));
        counts.closings_both += u64::from(midpoint && ladder::among(&p));
        counts.closings_unmade += u64::from(entries::has_unmade(&p));
        counts.closings_160 += u64::from(p.size() == 160);
        counts.closings_cleared += u64::from(c.cleared);
        match c.strategy {
            _ if p.bounds().is_empty() => counts.closings_discrete += 1,
            DEStrategy::Rand1 => counts.closings_rand1 += 1,
            DEStrategy::Best1 => counts.closings_best1 += 1,
            DEStrategy::CurrentToBest1 => counts.closings_current += 1,
        }
        drop(p);
        c.cleared = false;
        counts.closed_stopped += u64::from(c.closed == u32::MAX);
        // The counters of documents 01 and 02, which the Rust does not have: closed generations, and those since the
        // least value of all slots last became numerically smaller, 0 at the first closing.
        c.closed = c.closed.saturating_add(1);
        c.idle = if idle { c.idle.saturating_add(1) } else { 0 };
    }

    /// What an idle closing did to the slots, and what ended the idle ones.
    fn count_idle(&self, p: &Probe<'_>, idle: bool, before: u32, counts: &mut Counts) {
        counts.closings_idle += u64::from(idle);
        counts.idle_stopped += u64::from(idle && before == u32::MAX);
        counts.idle_ends += u64::from(!idle && before > 0);
        if idle {
            let mut slots = p.values().iter().zip(&self.values);
            let (now, old) = (p.values()[p.best()], self.values[self.best]);
            counts.idle_smaller += u64::from(slots.any(|(now, old)| now < old));
            counts.idle_zero += u64::from(now.is_sign_negative() && old.to_bits() == 0);
            counts.idle_infinite += u64::from(least(&self.values) == f64::INFINITY);
        }
    }

    /// The slots one by one. The Rust's parents must have the values that the driver works out, since the counter of
    /// idle generations is built on them.
    fn count_selection(&self, p: &Probe<'_>, results: &[f64], counts: &mut Counts) {
        for (slot, (&now, &result)) in p.values().iter().zip(results).enumerate() {
            counts.plus_infinity += u64::from(result == f64::INFINITY);
            counts.minus_infinity += u64::from(result == f64::NEG_INFINITY);
            let Some(&parent) = self.values.get(slot) else {
                assert_eq!(now.to_bits(), result.to_bits());
                continue;
            };
            let stays = result > parent;
            let expected = if stays { parent } else { result };
            assert_eq!(now.to_bits(), expected.to_bits(), "slot {slot}");
            counts.kept += u64::from(stays);
            counts.replaced_smaller += u64::from(result < parent);
            counts.replaced_equal += u64::from(result == parent);
            counts.replaced_zero += u64::from(result == parent && result.to_bits() != parent.to_bits());
        }
        let least = least(p.values());
        let later = !self.values.is_empty();
        counts.best_max += u64::from(later && least == f64::MAX && p.best() > 0);
        let minus = |v: &f64| v.to_bits() == (-0.0f64).to_bits();
        let zeros = p.values()[p.best()].to_bits() == 0 && p.values().iter().any(minus);
        counts.best_zeros += u64::from(later && zeros);
        let ties = p.values().iter().filter(|&&v| v == least).count();
        counts.best_moved += u64::from(later && p.best() != self.best);
        counts.best_tie += u64::from(ties > 1 && least < f64::INFINITY);
        counts.best_infinite += u64::from(least == f64::INFINITY);
    }

    fn count_history(
        &self,
        p: &Probe<'_>,
        results: &[f64],
        trial: u64,
        history: &[CompletedTrial],
        counts: &mut Counts,
    ) {
        let (slots, extras) = self.trials.split_at(p.size());
        let mut first: HashMap<u64, (usize, f64)> = HashMap::new();
        let mut last: HashMap<u64, (usize, f64)> = HashMap::new();
        for (at, t) in history.iter().enumerate() {
            first.entry(t.id).or_insert((at, t.value));
            last.insert(t.id, (at, t.value));
        }
        let other = |t: &&u64| first[*t].1.to_bits() != last[*t].1.to_bits();
        counts.results_repeated += slots.iter().filter(other).count() as u64;
        counts.results_unordered += u64::from(!slots.is_sorted_by_key(|t| last[t].0));
        let open: HashSet<&u64> = self.trials.iter().collect();
        counts.results_strangers += u64::from(history.iter().any(|t| !open.contains(&t.id)));
        let least = least(results);
        let better = |t: &u64| last.get(t).is_some_and(|&(_, value)| value < least);
        counts.extras_better += u64::from(extras.iter().any(better));
        counts.closings_extras += u64::from(!extras.is_empty());
        counts.closings_64 += u64::from(extras.len() == 64);
        counts.closings_by_old += u64::from(self.trials.contains(&trial));
    }
}

/// The numerically least of the values.
fn least(values: &[f64]) -> f64 {
    values.iter().copied().fold(f64::INFINITY, f64::min)
}

/// The last entry of each trial.
fn results_of(trials: &[u64], history: &[CompletedTrial]) -> Vec<f64> {
    let last: HashMap<u64, f64> = history.iter().map(|t| (t.id, t.value)).collect();
    trials.iter().map(|t| last[t]).collect()
}

/// The dimensions, once discovery has ended.
fn count_space(p: &Probe<'_>, counts: &mut Counts) {
    let dims = p.dims();
    counts.dims_1 += u64::from(dims == 1);
    counts.dims_16 += u64::from(dims == 16);
    counts.continuous_0 += u64::from(p.bounds().is_empty());
    let differs = |i: &usize| p.entry_of(*i) < *i && !is_choice(p.distribution(*i));
    counts.mixed += u64::from((0..dims).any(|i| differs(&i)));
    for i in 0..dims {
        if let Some(ends) = ladder::ends(p.distribution(i)) {
            count_ends(ends, counts);
        }
        let (equal, limit, steps) = match p.distribution(i) {
            Distribution::Float(d) => (
                d.low == d.high,
                d.low == -1e300 || d.high == 1e300,
                d.step.map(|s| ((d.high - d.low) / s).fract() == 0.0),
            ),
            Distribution::Int(d) => (
                d.low == d.high,
                d.low == -(1 << 53) || d.high == 1 << 53,
                d.step.map(|s| (d.high - d.low) % s == 0),
            ),
            Distribution::Categorical(d) => (false, d.n_choices == 65_535, None),
        };
        counts.equal_bounds += u64::from(equal);
        counts.limit_bounds += u64::from(limit);
        counts.step_meets += u64::from(steps == Some(true));
        counts.step_misses += u64::from(steps == Some(false));
    }
}

/// A ladder's low and high: on a rung, or between two.
fn count_ends((low, high): ladder::Ends, counts: &mut Counts) {
    let on_rung = |number: i64| rungs::below(number) < rungs::below(number + 1);
    counts.ladders += 1;
    counts.ladders_from_1 += u64::from(low == ladder::LOWEST);
    counts.ladders_whole += u64::from((low, high) == (ladder::LOWEST, ladder::HIGHEST));
    counts.ladders_equal += u64::from(low == high);
    counts.ladders_low_between += u64::from(!on_rung(low));
    counts.ladders_high_between += u64::from(!on_rung(high));
}

/// The new candidates against the parents they come from.
fn count_crossover(p: &Probe<'_>, counts: &mut Counts) {
    let bounds = p.bounds();
    for slot in 0..p.size() {
        let (parent, candidate) = (p.parent(slot), p.candidate(slot));
        for (j, &x) in candidate.entries.iter().enumerate() {
            if x.to_bits() == parent.entries[j].to_bits() {
                counts.entries_parent += 1;
            } else if x == bounds[j].0 {
                counts.entries_low += 1;
            } else if x == bounds[j].1 {
                counts.entries_high += 1;
            } else {
                counts.entries_mutant += 1;
            }
        }
    }
}
