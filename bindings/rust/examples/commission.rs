//! Tables 9 and 10 of docs/GUIDE.md: a commissioning crew tries every combination of three dimensions of a new disk model,
//! and then tries campaigns out on what was measured.

use std::collections::BTreeSet;
use std::error::Error;
use std::io;
use std::ops::RangeInclusive;

use emkhurtov::{CompletedTrial, DEStrategy, Distribution, ParamValue, Refusal, Sampler, SamplerBuilder, Sweep, sweep};

mod median;
mod seeds;

use median::median;
use seeds::each_seed;

const MODES: [&str; 3] = ["none", "write-through", "write-back"];

/// Cache mode, flush interval (ms), queue depth.
fn dimensions() -> [Distribution; 3] {
    [
        Distribution::categorical(MODES.len() as u64),
        Distribution::int_step(20, 200, 20),
        Distribution::int(1, 16),
    ]
}

/// A stand-in for the disk: how long a write waits (99th percentile, ms). Which interval and which depth suit depends on
/// the mode. Sums, products and quotients only, so that every machine gives the same bits.
fn measure(mode: u64, flush: i64, depth: i64) -> f64 {
    let (base, suits, deep) = [(2.4, 60.0, 4.0), (1.7, 100.0, 6.0), (1.1, 140.0, 11.0)][mode as usize];
    let (flush, depth) = ((flush as f64 - suits) / 60.0, (depth as f64 - deep) / 4.0);
    base + flush * flush + depth * depth + 0.6 * flush * depth
}

fn measure_settings(settings: &[ParamValue]) -> f64 {
    match *settings {
        [
            ParamValue::Categorical(mode),
            ParamValue::Int(flush),
            ParamValue::Int(depth),
        ] => measure(mode, flush, depth),
        [ParamValue::Int(mode), ParamValue::Int(flush), ParamValue::Int(depth)] => measure(mode as u64, flush, depth),
        _ => unreachable!("a mode, an interval and a depth were asked for"),
    }
}

/// Every combination, and what was measured with it, place for place.
struct Measured {
    all: Sweep,
    results: Vec<f64>,
    /// The place of the least result, which no other combination has.
    best: usize,
}

impl Measured {
    fn of(dimensions: &[Distribution]) -> Result<Measured, Box<dyn Error>> {
        let all = sweep(dimensions)?;
        let results: Vec<f64> = all.iter().map(measure_settings).collect();
        let places = 0..all.len();
        let best = places
            .min_by(|a, b| results[*a].total_cmp(&results[*b]))
            .expect("a sweep is not empty");
        assert_eq!(results.iter().filter(|result| **result <= results[best]).count(), 1);
        Ok(Measured { all, results, best })
    }
}

// ---- Table 9.

fn whole(setting: ParamValue) -> i64 {
    setting.as_i64().expect("a whole number was asked for")
}

fn tried(out: &mut impl io::Write, measured: &Measured) -> io::Result<()> {
    let least = measured.results[measured.best];
    writeln!(
        out,
        "9. All {} combinations   least  flush  depth   median   most   within 10% of the best",
        measured.all.len()
    )?;
    for (mode, name) in (0..).zip(MODES) {
        let of_mode = || {
            let pairs = measured.all.iter().zip(&measured.results);
            pairs.filter(move |(settings, _)| settings[0] == ParamValue::Categorical(mode))
        };
        let mut results: Vec<f64> = of_mode().map(|(_, result)| *result).collect();
        results.sort_by(f64::total_cmp);
        let middle = median(results.iter().copied());
        let (settings, _) = of_mode()
            .find(|(_, result)| **result == results[0])
            .expect("it is one of them");
        writeln!(
            out,
            "{name:<22} {:>8.2} {:>6} {:>6} {middle:>8.2} {:>6.2} {:>24}",
            results[0],
            whole(settings[1]),
            whole(settings[2]),
            results[results.len() - 1],
            results.iter().filter(|result| **result <= 1.1 * least).count()
        )?;
    }
    Ok(())
}

// ---- Table 10.

const SEEDS: RangeInclusive<u64> = 1..=100;
const TRIALS: usize = 200;
/// The slots that a size which is unset comes to: 10 for each Int dimension, 15 at least.
const UNSET: usize = 20;

/// How trials are chosen.
#[derive(Clone, Copy)]
struct Plan {
    setup: SamplerBuilder,
    slots: usize,
    /// Asked for past the last dimension, where each setting is drawn at random.
    random: bool,
}

fn plan(slots: usize, f: f64, strategy: DEStrategy) -> Plan {
    let setup = Sampler::builder()
        .population_size(slots as u64)
        .mutation_factor(f)
        .strategy(strategy);
    Plan {
        setup,
        slots,
        random: false,
    }
}

/// What a campaign came to.
struct Campaign {
    /// The trial that had the best combination, from 1.
    found: Option<usize>,
    /// How many combinations were among its trials'.
    different: usize,
    /// How many trials were measured, since the sweep does not have their settings.
    measured: usize,
}

impl Plan {
    /// One trial at a time, each looked up in what was measured.
    fn campaign(&self, dimensions: [Distribution; 3], known: &Measured, seed: u64) -> Result<Campaign, Refusal> {
        let mut sampler = self.setup.seed(seed).build()?;
        let mut history: Vec<CompletedTrial> = Vec::new();
        let (mut found, mut measured, mut places) = (None, 0, BTreeSet::new());
        for trial in 0..TRIALS {
            let lent = &history[history.len().saturating_sub(self.slots)..];
            let mut settings = [ParamValue::Int(0); 3];
            // The first trial finds the dimensions.
            let times = if self.random && trial > 0 { 2 } else { 1 };
            for _ in 0..times {
                for (setting, dimension) in settings.iter_mut().zip(dimensions) {
                    *setting = sampler.sample(&dimension, trial as u64, lent)?.setting;
                }
            }
            let value = match known.all.position(&settings) {
                Some(place) => {
                    places.insert(place);
                    if place == known.best {
                        found = found.or(Some(trial + 1));
                    }
                    known.results[place]
                }
                None => {
                    // A high that no step meets: it is in no sweep.
                    assert!(settings[1] == ParamValue::Int(HIGH_BETWEEN));
                    measured += 1;
                    measure_settings(&settings)
                }
            };
            assert_eq!(value, measure_settings(&settings));
            history.push(CompletedTrial::new(trial as u64, value));
        }
        Ok(Campaign {
            found,
            different: places.len(),
            measured,
        })
    }
}

/// A line: the share of campaigns that had found the best combination after so many trials, the median of when, and the
/// means of how many combinations were tried and of how many trials were measured.
fn line(
    out: &mut impl io::Write,
    name: &str,
    plan: Plan,
    dimensions: [Distribution; 3],
    known: &Measured,
) -> Result<(), Box<dyn Error>> {
    let campaigns: Vec<Campaign> = each_seed(SEEDS, |seed| plan.campaign(dimensions, known, seed))?;
    let n = campaigns.len() as f64;
    let share = |trials| {
        let found = campaigns.iter().filter(|c| c.found.is_some_and(|at| at <= trials));
        format!("{:.0}%", 100.0 * found.count() as f64 / n)
    };
    let when = median(campaigns.iter().map(|c| c.found.map_or(f64::INFINITY, |at| at as f64)));
    let when = if when.is_finite() {
        format!("{when:.0}")
    } else {
        "-".to_string()
    };
    let mean = |figure: fn(&Campaign) -> usize| campaigns.iter().map(figure).sum::<usize>() as f64 / n;
    writeln!(
        out,
        "{name:<41} {:>5} {:>6} {:>6} {when:>7} {:>6.0} {:>9.1}",
        share(50),
        share(100),
        share(TRIALS),
        mean(|c| c.different),
        mean(|c| c.measured)
    )?;
    Ok(())
}

/// A high limit of the flush interval that no step from 20 by 20 meets.
const HIGH_BETWEEN: i64 = 195;

fn campaigns(out: &mut impl io::Write, known: &Measured) -> Result<(), Box<dyn Error>> {
    let as_they_are = dimensions();
    let [_, flush, depth] = as_they_are;
    let defaults = Plan {
        setup: Sampler::builder(),
        slots: UNSET,
        random: false,
    };
    let random = Plan {
        random: true,
        ..defaults
    };
    let eight = plan(8, 0.7, DEStrategy::CurrentToBest1);
    let twelve = plan(12, 0.7, DEStrategy::CurrentToBest1);
    writeln!(
        out,
        "\n10. Best found after so many trials          50    100    200  median  tried  measured"
    )?;
    line(out, "random search", random, as_they_are, known)?;
    line(
        out,
        "the defaults: N = 20, F = 0.8, Rand1",
        defaults,
        as_they_are,
        known,
    )?;
    line(out, "N = 8, F = 0.7, CurrentToBest1", eight, as_they_are, known)?;
    line(out, "N = 12, F = 0.7, CurrentToBest1", twelve, as_they_are, known)?;

    // The mode as an Int: the same numbers in the same order, so the results stand.
    let numbered = [Distribution::int(0, 2), flush, depth];
    let as_numbers = Measured::of(&numbered)?;
    assert!(as_numbers.results == known.results && as_numbers.best == known.best);
    line(out, "N = 8, the mode as an Int", eight, numbered, &as_numbers)?;
    line(out, "N = 12, the mode as an Int", twelve, numbered, &as_numbers)?;

    let between = Distribution::int_step(20, HIGH_BETWEEN, 20);
    let with_high = [Distribution::int(0, 2), between, depth];
    let fewer = Measured::of(&with_high)?;
    assert_eq!(fewer.all.len(), 3 * 9 * 16);
    line(out, "the same, the interval up to 195", twelve, with_high, &fewer)
}

fn main() -> Result<(), Box<dyn Error>> {
    let mut out = io::stdout();
    let known = Measured::of(&dimensions())?;
    assert_eq!(known.all.len(), MODES.len() * 10 * 16);
    tried(&mut out, &known)?;
    campaigns(&mut out, &known)
}
