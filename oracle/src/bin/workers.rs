//! `workers [SEED [CAMPAIGNS]]`: eight workers over the Rust's own sampler, in virtual time, sharing it in several ways.
//! Prints how often discovery is cut short and how many campaigns end with a wrong slot (docs/FINDINGS.md). The same
//! words print the same figures.

use std::process::ExitCode;

use oracle::workers::gateway::DIMS;
use oracle::workers::{Outcome, Plan, RUN, SLOTS, Sharing, WORKERS, campaign};

const GENERATIONS: u64 = 30;
const STARTS: u64 = 40;
const CAMPAIGNS: u64 = 60;

const HEAD: &str = "\
One lock a call, all start together: campaigns in which discovery is cut short

     gap  cut short";

const TABLE: &str = "
Campaigns that end with a slot, or with a best slot, whose value is not the objective of its vector; the largest such
objective of a best slot over its value; and all counted results, by the calls that the trial had made in the generation
that counted it before its value was told, in brackets those that are not the objective of their vector

     gap  a slot       the best   largest   fewer than D   exactly D  shared";

fn main() -> ExitCode {
    let words: Vec<Option<u64>> = std::env::args().skip(1).map(|word| word.parse().ok()).collect();
    let (seed, campaigns) = match words[..] {
        [] => (1, CAMPAIGNS),
        [Some(seed)] => (seed, CAMPAIGNS),
        [Some(seed), Some(campaigns)] => (seed, campaigns),
        _ => {
            eprintln!("usage: workers [SEED [CAMPAIGNS]]");
            return ExitCode::from(2);
        }
    };
    println!("{WORKERS} workers, N = {SLOTS}, {DIMS} dimensions, {GENERATIONS} generations, no noise; seed {seed}");
    println!("a trial runs for 1 on average; the gap is what passes on average between two of its calls\n\n{HEAD}");
    for gap in [RUN / 100_000, RUN / 1_000, RUN / 50, RUN / 5] {
        let all = outcomes(Sharing::Call, gap, seed, STARTS);
        let cut = all.iter().filter(|o| o.dims < DIMS).count();
        println!("{:>8}  {cut} of {STARTS}", shown(gap));
    }
    println!("{TABLE}");
    for (sharing, gap, words) in [
        (
            Sharing::CallFirstAlone,
            RUN / 5,
            "one lock a call, the first trial alone",
        ),
        (
            Sharing::CallFirstAlone,
            RUN / 50,
            "one lock a call, the first trial alone",
        ),
        (
            Sharing::Trial,
            RUN / 5,
            "one lock a trial, the history as it stands at each call",
        ),
        (Sharing::TrialOneHistory, RUN / 5, "one lock and one history a trial"),
    ] {
        row(gap, words, &outcomes(sharing, gap, seed, campaigns));
    }
    ExitCode::SUCCESS
}

fn outcomes(sharing: Sharing, gap: u64, seed: u64, campaigns: u64) -> Vec<Outcome> {
    let plan = Plan {
        sharing,
        gap,
        generations: GENERATIONS,
    };
    let seeds = (0..campaigns).map(|k| seed.wrapping_mul(1_000_000).wrapping_add(k));
    seeds.map(|seed| campaign(plan, seed)).collect()
}

fn shown(gap: u64) -> f64 {
    gap as f64 / RUN as f64
}

fn row(gap: u64, words: &str, all: &[Outcome]) {
    assert!(all.iter().all(|o| o.dims == DIMS), "discovery was cut short");
    let slots = all.iter().filter(|o| o.wrong > 0).count();
    let best = all.iter().filter(|o| o.best.0 != o.best.1);
    let ratios: Vec<f64> = best.map(|o| o.best.1 / o.best.0).collect();
    let largest = match ratios.iter().copied().reduce(f64::max) {
        Some(ratio) => format!("{ratio:.1}"),
        None => "-".to_owned(),
    };
    let [fewer, exactly, more] = [0, 1, 2].map(|i| {
        all.iter()
            .fold((0, 0), |(a, w), o| (a + o.counted[i].0, w + o.counted[i].1))
    });
    assert_eq!(more, (0, 0), "no worker asks again");
    let of = |count: usize| format!("{count} of {}", all.len());
    let with = |(all, wrong): (u64, u64)| format!("{all} ({wrong})");
    println!(
        "{:>8}  {:<11}  {:<9}  {largest:>7}  {:>13}  {:>10}  {words}",
        shown(gap),
        of(slots),
        of(ratios.len()),
        with(fewer),
        with(exactly)
    );
}
