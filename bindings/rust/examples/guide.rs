//! The figures of docs/GUIDE.md: campaigns of the gateway's disk under several set-ups, which every run repeats.

use std::error::Error;
use std::io::{self, Write as _};
use std::ops::RangeInclusive;

use emkhurtov::{CompletedTrial, DEStrategy, Distribution, ParamValue, Refusal, Sampler, SamplerBuilder};

mod disk;
mod median;

use disk::{Settings, dimensions, measure};
use median::median;

/// The set-up was chosen on the first seeds, and is judged on the fresh ones.
const SEEDS: RangeInclusive<u64> = 1..=20;
const FRESH: RangeInclusive<u64> = 21..=100;
/// From here on a campaign counts as having found the least possible value, 0.9.
const FOUND: f64 = 0.95;

#[derive(Clone, Copy)]
struct Plan {
    setup: SamplerBuilder,
    space: [Distribution; 4],
    /// The schedulers that the numbers 0 to 3 stand for.
    order: [i64; 4],
    /// Random search: every trial's settings are drawn anew.
    random: bool,
    workers: usize,
    trials: u64,
}

/// A trial that was told, and what a look showed then.
struct Told {
    time: f64,
    value: f64,
    closed: u64,
    idle: u64,
}

impl Plan {
    /// All of a trial's dimensions in one go, with one history. A trial that asks on past its last dimension is
    /// answered at random: that is random search.
    fn ask(&self, sampler: &mut Sampler, trial: u64, history: &[CompletedTrial]) -> Result<f64, Refusal> {
        let trial = if self.random { trial.min(1) } else { trial };
        let mut answers = [ParamValue::Int(0); 4];
        for (answer, distribution) in answers.iter_mut().zip(&self.space) {
            *answer = sampler.sample(distribution, trial, history)?.setting;
        }
        let mut settings = Settings::of(&answers).expect("answers are of their dimensions' kinds");
        settings.scheduler = self.order[settings.scheduler as usize];
        Ok(measure(settings))
    }

    /// A campaign in virtual time: a worker that is free starts the next trial.
    fn campaign(&self, seed: u64) -> Result<Vec<Told>, Refusal> {
        let mut sampler = self.setup.seed(seed).build()?;
        let (mut history, mut running, mut told) = (Vec::new(), Vec::new(), Vec::new());
        let (mut now, mut next) = (0.0, 0);
        loop {
            while running.len() < self.workers && next < self.trials {
                let value = self.ask(&mut sampler, next, &history)?;
                running.push((now + lasts(seed, next), CompletedTrial::new(next, value)));
                next += 1;
            }
            let ends = |i: &usize| running[*i].0;
            let Some(first) = (0..running.len()).min_by(|i, j| ends(i).total_cmp(&ends(j))) else {
                return Ok(told);
            };
            let (time, trial) = running.swap_remove(first);
            now = time;
            if !self.random {
                history.push(trial);
            }
            let (closed, idle) = sampler.look()?.map_or((0, 0), |look| (look.closed, look.idle));
            told.push(Told {
                time,
                value: trial.value,
                closed,
                idle,
            });
        }
    }

    fn campaigns(&self, seeds: RangeInclusive<u64>) -> Result<Vec<Vec<Told>>, Refusal> {
        seeds.map(|seed| self.campaign(seed)).collect()
    }
}

/// How long a trial runs: 0.5 to 1.5, scattered as SplitMix64 scatters its word.
fn lasts(seed: u64, trial: u64) -> f64 {
    let z = (seed << 32 | trial).wrapping_mul(0x9e37_79b9_7f4a_7c15);
    let z = (z ^ z >> 30).wrapping_mul(0xbf58_476d_1ce4_e5b9);
    let z = (z ^ z >> 27).wrapping_mul(0x94d0_49bb_1331_11eb);
    0.5 + (z >> 11) as f64 / (1u64 << 53) as f64
}

fn least(told: &[Told]) -> f64 {
    told.iter().map(|t| t.value).fold(f64::INFINITY, f64::min)
}

/// In how many campaigns of a hundred it holds.
fn percent(campaigns: &[Vec<Told>], holds: impl Fn(&[Told]) -> bool) -> String {
    let holding = campaigns.iter().filter(|told| holds(told)).count();
    format!("{:.0}%", 100.0 * holding as f64 / campaigns.len() as f64)
}

/// The orders in which the four schedulers can be numbered.
fn orders() -> impl Iterator<Item = [i64; 4]> {
    let orders = (0..256).map(|code| [code & 3, code >> 2 & 3, code >> 4 & 3, code >> 6]);
    orders.filter(|order| (0..4).all(|scheduler| order.contains(&scheduler)))
}

/// The line of a set-up: the least value after 146, 300 and 500 trials, and how many campaigns found the least possible.
fn line(name: &str, campaigns: &[Vec<Told>]) -> String {
    let after = |trials: usize| median(campaigns.iter().map(|told| least(&told[..trials])));
    let found = percent(campaigns, |told| least(told) <= FOUND);
    format!(
        "{name:<44} {:>6.2} {:>6.2} {:>6.2} {found:>6}",
        after(146),
        after(300),
        after(500)
    )
}

/// The line of so many slots and workers: after 300 trials, and after a time of 40 trials that follow each other.
fn workers_line(plan: Plan, slots: u64, workers: usize) -> Result<String, Refusal> {
    let trials = (50 * workers as u64).max(300);
    let setup = plan.setup.population_size(slots);
    let campaigns = Plan {
        setup,
        workers,
        trials,
        ..plan
    }
    .campaigns(SEEDS)?;
    let early = |told: &[Told]| least(&told[..told.partition_point(|t| t.time <= 40.0)]);
    Ok(format!(
        "N = {slots}, workers {workers:>2} {:>21.2} {:>6.0} {:>7.0} {:>17.2} {:>6}",
        median(campaigns.iter().map(|told| least(&told[..300]))),
        median(campaigns.iter().map(|told| told[299].time)),
        median(campaigns.iter().map(|told| told[299].closed as f64)),
        median(campaigns.iter().map(|told| early(told))),
        percent(&campaigns, |told| early(told) <= FOUND),
    ))
}

/// The trials until look's idle count reached so many generations.
fn stop(told: &[Told], generations: u64) -> usize {
    let stops = told.iter().position(|t| t.idle >= generations);
    stops.map_or(told.len(), |i| i + 1)
}

fn stop_line(name: &str, campaigns: &[Vec<Told>], generations: u64) -> String {
    let until = |told: &[Told]| least(&told[..stop(told, generations)]);
    format!(
        "{name:<47} {generations:>3} {:>7.0} {:>6.2} {:>6} {:>13}",
        median(campaigns.iter().map(|told| stop(told, generations) as f64)),
        median(campaigns.iter().map(|told| until(told))),
        percent(campaigns, |told| until(told) <= FOUND),
        percent(campaigns, |told| least(told) < until(told)),
    )
}

fn main() -> Result<(), Box<dyn Error>> {
    let mut space = dimensions();
    space[3] = Distribution::categorical(4);
    let order = [0, 1, 2, 3];
    let setup = Sampler::builder();
    let defaults = Plan {
        setup,
        space,
        order,
        random: false,
        workers: 1,
        trials: 500,
    };
    let random = Plan {
        random: true,
        ..defaults
    };
    let small = Plan {
        setup: setup.population_size(12).mutation_factor(0.7),
        ..defaults
    };
    let choice = Plan {
        setup: small.setup.strategy(DEStrategy::CurrentToBest1),
        ..small
    };
    let whole = Plan {
        space: dimensions(),
        ..choice
    };
    let mut out = io::stdout();

    let columns = "   146    300    500  found";
    writeln!(out, "1. Least value after so many trials          {columns}")?;
    for (name, plan) in [
        ("random search", random),
        ("the defaults: N = 30, F = 0.8, Rand1", defaults),
        ("N = 12, F = 0.7, Rand1", small),
        ("N = 12, F = 0.7, CurrentToBest1", choice),
        ("the same, the scheduler as an Int", whole),
    ] {
        writeln!(out, "{}", line(name, &plan.campaigns(SEEDS)?))?;
    }
    let mut every = Vec::new();
    for order in orders() {
        every.extend(Plan { order, ..whole }.campaigns(1..=5)?);
    }
    writeln!(out, "{}", line("the same in all 24 orders, seeds 1 to 5", &every))?;
    let setup = whole.setup;
    for (name, plan) in [
        ("seeds 21 to 100: random search", random),
        ("seeds 21 to 100: the defaults", defaults),
        ("seeds 21 to 100: the scheduler as an Int", whole),
        (
            "seeds 21 to 100: the same, N = 20",
            Plan {
                setup: setup.population_size(20),
                ..whole
            },
        ),
        (
            "seeds 21 to 100: the same, Rand1",
            Plan {
                setup: setup.strategy(DEStrategy::Rand1),
                ..whole
            },
        ),
    ] {
        writeln!(out, "{}", line(name, &plan.campaigns(FRESH)?))?;
    }

    writeln!(out, "\n2. The Int of 1 with one thing changed       {columns}")?;
    for (name, setup) in [
        ("N = 4", setup.population_size(4)),
        ("N = 8", setup.population_size(8)),
        ("N = 20", setup.population_size(20)),
        ("N = 40, as it is unset", setup.population_size(40)),
        ("F = 0.5", setup.mutation_factor(0.5)),
        ("F = 0.9", setup.mutation_factor(0.9)),
        ("CR = 0", setup.crossover_rate(0.0)),
        ("CR = 0.5", setup.crossover_rate(0.5)),
        ("CR = 1", setup.crossover_rate(1.0)),
        ("Rand1", setup.strategy(DEStrategy::Rand1)),
        ("Best1", setup.strategy(DEStrategy::Best1)),
    ] {
        writeln!(out, "{}", line(name, &Plan { setup, ..whole }.campaigns(SEEDS)?))?;
    }

    writeln!(
        out,
        "\n3. Workers             300 trials: least   time  closed    time 40: least  found"
    )?;
    for (slots, workers) in [(12, 1), (12, 4), (12, 8), (12, 12), (12, 24), (24, 24)] {
        writeln!(out, "{}", workers_line(whole, slots, workers)?)?;
    }

    writeln!(
        out,
        "\n4. Stopped at an idle count of .. (seeds 21 to 100) trials  least  found  better later"
    )?;
    for (name, plan) in [
        ("the scheduler as an Int", whole),
        ("the scheduler as a Categorical", choice),
    ] {
        let campaigns = Plan { trials: 1000, ..plan }.campaigns(FRESH)?;
        for generations in [3, 5, 8, 12] {
            writeln!(out, "{}", stop_line(name, &campaigns, generations))?;
        }
    }
    Ok(())
}
