//! Tables 7 and 8 of docs/GUIDE.md: how a ladder from 1 to 64 is spaced, beside an Int without log scale, and what
//! either is worth to campaigns whose best depth is small or large.

use std::error::Error;
use std::io;
use std::ops::RangeInclusive;

use emkhurtov::{CompletedTrial, DEStrategy, Distribution, Refusal, Sampler};

mod median;
mod seeds;

use median::median;
use seeds::each_seed;

// ---- Table 7.

const HIGH: usize = 64;
/// The positions of a ladder from 1 to 64 are 0 to this one.
const LAST: usize = 1536;
/// How many settings are counted for each position.
const TIMES: usize = 50;
/// The rows of the table.
const RANGES: [RangeInclusive<usize>; 9] = [1..=1, 2..=2, 3..=3, 4..=4, 5..=7, 8..=15, 16..=31, 32..=63, 64..=64];

/// The first position whose rung is at least this number: the least p with 2^(p/256) at least it.
fn first_position(number: usize) -> usize {
    (256.0 * (number as f64).log2()).ceil() as usize
}

/// How often each number was drawn, at place 0 none.
type Counts = [usize; HIGH + 1];

/// Settings that are drawn past the last dimension, as in discovery.
fn drawn(depth: Distribution) -> Result<Counts, Refusal> {
    let mut counts = [0; HIGH + 1];
    let mut sampler = Sampler::builder().seed(1).build()?;
    for trial in [0, 1] {
        sampler.sample(&depth, trial, &[])?;
    }
    for _ in 0..TIMES * (LAST + 1) {
        let setting = sampler.sample(&depth, 1, &[])?.setting;
        counts[setting.as_i64().expect("a whole number was asked for") as usize] += 1;
    }
    Ok(counts)
}

/// The settings of random candidates: the first generations of as many samplers as give about as many.
fn first_candidates(depth: Distribution) -> Result<Counts, Refusal> {
    let mut counts = [0; HIGH + 1];
    for seed in 0..(TIMES * LAST / 160) as u64 {
        let mut sampler = Sampler::builder().seed(seed).population_size(160).build()?;
        sampler.sample(&depth, 0, &[])?;
        for trial in 1..=160 {
            let setting = sampler.sample(&depth, trial, &[])?.setting;
            counts[setting.as_i64().expect("a whole number was asked for") as usize] += 1;
        }
    }
    Ok(counts)
}

fn share(counts: &Counts, range: &RangeInclusive<usize>) -> String {
    let part: usize = counts[range.clone()].iter().sum();
    let whole: usize = counts.iter().sum();
    format!("{:.2}%", 100.0 * part as f64 / whole as f64)
}

fn spacing(out: &mut impl io::Write) -> Result<(), Box<dyn Error>> {
    let (ladder, whole) = (Distribution::int_log(1, 64), Distribution::int(1, 64));
    let counts = [
        drawn(ladder)?,
        first_candidates(ladder)?,
        drawn(whole)?,
        first_candidates(whole)?,
    ];
    writeln!(
        out,
        "7. 1 to 64        as a ladder: positions     drawn  candidates    as an Int: drawn  candidates"
    )?;
    for range in RANGES {
        let (from, to) = (*range.start(), *range.end());
        let first = first_position(from);
        let last = if to == HIGH { LAST } else { first_position(to + 1) - 1 };
        let [a, b, c, d] = counts.each_ref().map(|counts| share(counts, &range));
        let name = if from == to {
            format!("{from}")
        } else {
            format!("{from} to {to}")
        };
        writeln!(
            out,
            "{name:<8} {first:>11} to {last:>4} {:>14} {a:>9} {b:>11} {c:>19} {d:>11}",
            last - first + 1
        )?;
    }
    Ok(())
}

// ---- Table 8.

const SEEDS: RangeInclusive<u64> = 1..=40;
const SLOTS: usize = 12;
const TRIALS: usize = 146;
/// A campaign that came so near to the least possible value counts as having found it.
const NEAR: f64 = 0.05;

/// What a depth costs, of which this one is the best.
type Cost = fn(f64, f64) -> f64;

/// As far from the best by its half as by its double.
fn by_ratio(depth: f64, best: f64) -> f64 {
    depth / best + best / depth - 2.0
}

/// As far from the best by so many less as by so many more.
fn by_difference(depth: f64, best: f64) -> f64 {
    let apart = (depth - best) / 200.0;
    apart * apart
}

/// The gateway's disk (examples/disk) with the scheduler kyber, another cost of depth, which does not act together with
/// the quota, and the least value taken away.
fn value(quota: f64, flush: f64, depth_cost: f64) -> f64 {
    let (quota, flush) = ((quota - 92.0) / 48.0, (flush - 120.0) / 90.0);
    4.0 * quota * quota + 1.5 * flush * flush + depth_cost
}

/// The least value after each trial, one trial at a time.
fn campaign(seed: u64, depth: Distribution, cost: Cost, best: f64) -> Result<Vec<f64>, Refusal> {
    let builder = Sampler::builder().population_size(SLOTS as u64).mutation_factor(0.7);
    let mut sampler = builder.strategy(DEStrategy::CurrentToBest1).seed(seed).build()?;
    let mut history: Vec<CompletedTrial> = Vec::new();
    let mut least: Vec<f64> = Vec::new();
    for trial in 0..TRIALS {
        let mut ask = |d: &Distribution| sampler.sample(d, trial as u64, &history).map(|sampled| sampled.setting);
        let quota = ask(&Distribution::float(8.0, 256.0))?
            .as_f64()
            .expect("a double was asked for");
        let flush = ask(&Distribution::float(5.0, 500.0))?
            .as_f64()
            .expect("a double was asked for");
        let depth = ask(&depth)?.as_i64().expect("a whole number was asked for");
        let value = value(quota, flush, cost(depth as f64, best));
        history.push(CompletedTrial::new(trial as u64, value));
        least.push(value.min(*least.last().unwrap_or(&f64::INFINITY)));
    }
    Ok(least)
}

/// A half of a line: the least value after 50 trials and after all of them (medians), and the share of campaigns that
/// came near to the least possible.
fn search_half(depth: Distribution, cost: Cost, best: f64) -> Result<String, Refusal> {
    let campaigns: Vec<Vec<f64>> = each_seed(SEEDS, |seed| campaign(seed, depth, cost, best))?;
    let after = |trials: usize| median(campaigns.iter().map(|least| least[trials - 1]));
    let found = campaigns.iter().filter(|least| least[TRIALS - 1] <= NEAR).count();
    Ok(format!(
        "{:>6.2} {:>6.2} {:>5.0}%",
        after(50),
        after(TRIALS),
        100.0 * found as f64 / campaigns.len() as f64
    ))
}

fn search(out: &mut impl io::Write) -> Result<(), Box<dyn Error>> {
    writeln!(
        out,
        "\n8. Least value after 50 and 146 trials     as a ladder: 50    146  found    as an Int: 50    146  found"
    )?;
    for (name, cost) in [("ratio", by_ratio as Cost), ("difference", by_difference)] {
        for best in [4.0, 32.0, 256.0, 1000.0] {
            let ladder = search_half(Distribution::int_log(1, 1024), cost, best)?;
            let whole = search_half(Distribution::int(1, 1024), cost, best)?;
            writeln!(out, "by {name:<11} best at {best:>5} {ladder:>37} {whole:>36}")?;
        }
    }
    Ok(())
}

fn main() -> Result<(), Box<dyn Error>> {
    let mut out = io::stdout();
    spacing(&mut out)?;
    search(&mut out)
}
