//! Tables 5 and 6 of docs/GUIDE.md: how many candidates stand exactly on a bound with clamp and with midpoint, and what
//! either costs, in campaigns whose best quota lies inside, near, on or beyond the quota's limit.

use std::error::Error;
use std::io::{self, Write as _};
use std::ops::RangeInclusive;

use emkhurtov::{BoundsRule, CompletedTrial, DEStrategy, Distribution, ParamValue, Refusal, Sampler, SamplerBuilder};

mod median;
mod seeds;

use median::median;
use seeds::each_seed;

/// The campaigns were chosen on the first seeds. Table 6 has fresh ones.
const SEEDS: RangeInclusive<u64> = 1..=20;
const FRESH: RangeInclusive<u64> = 21..=60;
const SLOTS: usize = 12;
/// A campaign that came so near to the least possible value counts as having found it.
const NEAR: f64 = 0.001;

const LIMIT: f64 = 256.0;
/// Quota (MB/s), flush interval (ms) and depth. They are Floats without a step, so that a setting is its candidate's entry
/// as it is; an Int's entry is rounded, and comes to stand on a bound from beside it.
const DIMENSIONS: [(f64, f64); 3] = [(8.0, LIMIT), (5.0, 500.0), (1.0, 64.0)];

#[derive(Clone, Copy)]
struct Plan {
    setup: SamplerBuilder,
    best_quota: f64,
    /// A measured value is too large by up to this part of it.
    scatter: f64,
    generations: usize,
}

/// What a campaign's candidates were, generation by generation.
struct Campaign {
    /// How many had the limit as their quota.
    on_limit: Vec<usize>,
    /// How many had a bound as any of their settings.
    on_bound: Vec<usize>,
    /// The least value so far, without its scatter.
    least: Vec<f64>,
    /// In the end each slot had the limit as its quota. Then no difference is left there, and no candidate leaves it.
    settled: bool,
}

impl Plan {
    /// The stand-in of the gateway's disk (examples/disk) with the scheduler kyber, its best quota moved.
    fn value(&self, [quota, flush, depth]: [f64; 3]) -> f64 {
        let (quota, flush, depth) = (
            (quota - self.best_quota) / 48.0,
            (flush - 120.0) / 90.0,
            (depth - 12.0) / 10.0,
        );
        0.9 + 4.0 * quota * quota + 1.5 * flush * flush + depth * depth + 0.8 * quota * depth
    }

    /// The least possible value: where the best quota lies beyond the limit, the limit's with the depth that suits it.
    fn least_possible(&self) -> f64 {
        let quota = self.best_quota.min(LIMIT);
        self.value([quota, 120.0, 12.0 - 4.0 * (quota - self.best_quota) / 48.0])
    }

    /// One trial at a time, so the last results are all that a generation needs. The first trial finds the dimensions; each
    /// later one has a candidate that competes.
    fn campaign(&self, seed: u64) -> Result<Campaign, Refusal> {
        let mut sampler = self.setup.seed(seed).build()?;
        let mut history: Vec<CompletedTrial> = Vec::new();
        let mut campaign = Campaign {
            on_limit: vec![0; self.generations],
            on_bound: vec![0; self.generations],
            least: vec![f64::INFINITY; self.generations],
            settled: true,
        };
        for trial in 0..=self.generations * SLOTS {
            let lent = &history[history.len().saturating_sub(SLOTS)..];
            let mut settings = [0.0; 3];
            for (setting, (low, high)) in settings.iter_mut().zip(DIMENSIONS) {
                let sampled = sampler.sample(&Distribution::float(low, high), trial as u64, lent)?;
                *setting = sampled.setting.as_f64().expect("a double was asked for");
            }
            let value = self.value(settings);
            let measured = value * (1.0 + self.scatter * scattered(seed, trial as u64));
            history.push(CompletedTrial::new(trial as u64, measured));
            if trial > 0 {
                let generation = (trial - 1) / SLOTS;
                let mut bounds = settings.iter().zip(DIMENSIONS);
                campaign.on_limit[generation] += usize::from(settings[0] == LIMIT);
                campaign.on_bound[generation] += usize::from(bounds.any(|(&x, (low, high))| x == low || x == high));
                let before = campaign.least[generation.saturating_sub(1)];
                campaign.least[generation] = value.min(before).min(campaign.least[generation]);
            }
        }
        for slot in 0..SLOTS {
            let kept = sampler.slot_settings(slot)?.expect("generations have closed");
            campaign.settled &= kept[0] == ParamValue::Float(LIMIT);
        }
        Ok(campaign)
    }

    /// The campaigns of these seeds.
    fn campaigns(&self, rule: BoundsRule, seeds: RangeInclusive<u64>) -> Result<Vec<Campaign>, Refusal> {
        let setup = self.setup.bounds_rule(rule);
        let plan = &Plan { setup, ..*self };
        each_seed(seeds, |seed| plan.campaign(seed))
    }
}

/// 0 to 1, scattered as SplitMix64 scatters its word.
fn scattered(seed: u64, trial: u64) -> f64 {
    let z = (seed << 32 | trial).wrapping_mul(0x9e37_79b9_7f4a_7c15);
    let z = (z ^ z >> 30).wrapping_mul(0xbf58_476d_1ce4_e5b9);
    let z = (z ^ z >> 27).wrapping_mul(0x94d0_49bb_1331_11eb);
    (z >> 11) as f64 / (1u64 << 53) as f64
}

fn percent(part: usize, whole: usize) -> String {
    format!("{:.0}%", 100.0 * part as f64 / whole as f64)
}

/// A line of table 5: candidates counted over all campaigns, and the campaigns that settled on the limit.
fn counts_line(plan: Plan, name: &str, rule: BoundsRule) -> Result<String, Refusal> {
    let campaigns = plan.campaigns(rule, SEEDS)?;
    let on_limit = |from: usize, to: usize| -> usize { campaigns.iter().flat_map(|c| &c.on_limit[from..to]).sum() };
    Ok(format!(
        "{name:<33} {:<8} {:>5} {:>6} {:>8} {:>6} {:>9} {:>7}",
        format!("{rule:?}").to_lowercase(),
        on_limit(0, 10),
        on_limit(10, 100),
        on_limit(100, plan.generations),
        on_limit(0, plan.generations),
        campaigns.iter().flat_map(|c| &c.on_bound).sum::<usize>(),
        campaigns.iter().filter(|c| c.settled).count(),
    ))
}

/// A rule's half of a line of table 6.
fn search_half(plan: Plan, rule: BoundsRule) -> Result<String, Refusal> {
    let campaigns = plan.campaigns(rule, FRESH)?;
    let above = |c: &Campaign, generation: usize| c.least[generation] - plan.least_possible();
    let found = |c: &Campaign| (0..plan.generations).find(|&generation| above(c, generation) <= NEAR);
    let generation = |c: &Campaign| found(c).map_or(f64::INFINITY, |generation| generation as f64 + 1.0);
    let on_limit: usize = campaigns.iter().flat_map(|c| &c.on_limit).sum();
    let when = median(campaigns.iter().map(generation));
    Ok(format!(
        "{:>6.2} {:>5} {:>6} {:>6} {:>8}",
        median(campaigns.iter().map(|c| above(c, 9))),
        if when.is_finite() {
            format!("{when:.0}")
        } else {
            "-".to_string()
        },
        percent(campaigns.iter().filter_map(found).count(), campaigns.len()),
        percent(on_limit, campaigns.len() * plan.generations * SLOTS),
        percent(campaigns.iter().filter(|c| c.settled).count(), campaigns.len()),
    ))
}

fn main() -> Result<(), Box<dyn Error>> {
    let rand = Sampler::builder().population_size(SLOTS as u64).mutation_factor(0.7);
    let to_best = rand.strategy(DEStrategy::CurrentToBest1);
    let from_best = rand.strategy(DEStrategy::Best1);
    let mut out = io::stdout();

    writeln!(
        out,
        "5. On the limit in generations              1-10 11-100 101-1000    all any bound settled"
    )?;
    for (name, setup, scatter) in [
        ("CurrentToBest1, CR = 0.9", to_best, 0.0),
        ("Best1, CR = 0.9", from_best, 0.0),
        ("Rand1, CR = 0.9", rand, 0.0),
        ("Rand1, CR = 0.5", rand.crossover_rate(0.5), 0.0),
        ("Rand1, CR = 0.9, values scatter", rand, 0.1),
    ] {
        let plan = Plan {
            setup,
            best_quota: 252.0,
            scatter,
            generations: 1000,
        };
        writeln!(out, "{}", counts_line(plan, name, BoundsRule::Clamp)?)?;
        writeln!(out, "{}", counts_line(plan, "", BoundsRule::Midpoint)?)?;
    }

    let columns = "above  gen.  found  limit  settled";
    writeln!(
        out,
        "\n6. Best quota at .. (seeds 21 to 60), with clamp             with midpoint\n{:24}{columns}    {columns}",
        ""
    )?;
    for (name, setup) in [("CurrentToBest1", to_best), ("Best1", from_best), ("Rand1", rand)] {
        for best_quota in [92.0, 244.0, 252.0, 255.0, LIMIT, 300.0] {
            let plan = Plan {
                setup,
                best_quota,
                scatter: 0.0,
                generations: 100,
            };
            let clamp = search_half(plan, BoundsRule::Clamp)?;
            let midpoint = search_half(plan, BoundsRule::Midpoint)?;
            writeln!(out, "{name:<14} {best_quota:>8} {clamp}   {midpoint}")?;
        }
    }
    Ok(())
}
