//! Times the Rust original and the proved library on the same calls, in one run, and prints times and ratios.
//!
//! `time NAME NANOSECONDS`, `bytes NAME COUNT` and `ratio NAME VALUE`; a ratio is the proved library's figure over the
//! Rust's. Each time is the least of several rounds, in which the two take turns.
//!
//! `draws NAME SEEN CEILING`: the largest count of draws that a call of the proved library made, and its ceiling.
//! `generation` are the calls that close a generation or end discovery, `other` all others, `candidate` those of them
//! whose trial already has a candidate. It stops where a call drew more.
//!
//! `saved/..`: a save and a restore through the proved library, and the refusal of a file whose chain never ends.
//!
//! `export/..`: a metrics export of a million lines read through the proved library, nanoseconds a line and a byte.

mod draws;
mod export;
mod memory;
mod saved;
mod sides;

use std::time::Instant;

use memory::Counting;
use sides::{Bits, Proved, Rust, Side};

#[global_allocator]
static HEAP: Counting = Counting;

const SIZES: [(usize, usize); 3] = [(20, 2), (50, 5), (160, 16)];
const ROUNDS: usize = 7;
const GENERATIONS: usize = 30;
const CAMPAIGN: u64 = 10_000;

/// What a round measures, in nanoseconds.
#[derive(Clone, Copy)]
struct Times {
    sample: f64,
    closing: f64,
    campaign: f64,
}

impl Times {
    const NONE: Times = Times {
        sample: f64::INFINITY,
        closing: f64::INFINITY,
        campaign: f64::INFINITY,
    };

    fn least(self, other: Times) -> Times {
        Times {
            sample: self.sample.min(other.sample),
            closing: self.closing.min(other.closing),
            campaign: self.campaign.min(other.campaign),
        }
    }
}

/// A stand-in for a measurement: some positive double that follows from the settings.
fn value(settings: &[Bits]) -> f64 {
    let mixed = settings
        .iter()
        .fold(0u64, |h, b| (h ^ b).wrapping_mul(0x9e37_79b9_7f4a_7c15).rotate_left(23));
    (mixed >> 11) as f64
}

fn trial<S: Side>(side: &mut S, d: usize, number: u64, settings: &mut Vec<Bits>) {
    settings.clear();
    for dimension in 0..d {
        settings.push(side.sample(dimension, number));
    }
}

/// Generations of which only the last results are lent: plain calls and closings apart. Also a checksum of all settings.
fn generations<S: Side>(n: usize, d: usize, seed: u64) -> (f64, f64, u64) {
    let mut side = S::fresh(n, d, seed);
    let mut settings = Vec::new();
    let mut results = vec![0.0; n];
    let mut sum = 0u64;
    let (mut plain, mut closing) = (f64::INFINITY, f64::INFINITY);
    trial(&mut side, d, 0, &mut settings);
    let mut number = 1;
    for generation in 0..GENERATIONS {
        let first = number;
        // The first call closes the generation before; the first generation has none before it.
        let start = Instant::now();
        settings.clear();
        settings.push(side.sample(0, number));
        if generation > 1 {
            closing = closing.min(start.elapsed().as_nanos() as f64);
        }
        side.forget();
        let mut spent = 0;
        for slot in 0..n {
            let start = Instant::now();
            for dimension in usize::from(slot == 0)..d {
                settings.push(side.sample(dimension, number));
            }
            spent += start.elapsed().as_nanos();
            results[slot] = value(&settings);
            sum = settings.iter().fold(sum, |h, b| h.rotate_left(9) ^ b);
            settings.clear();
            number += 1;
        }
        if generation > 0 {
            plain = plain.min(spent as f64 / (n * d - 1) as f64);
        }
        for (slot, result) in results.iter().enumerate() {
            side.tell(first + slot as u64, *result);
        }
    }
    (plain, closing, sum)
}

/// A campaign whose history grows by every trial.
fn campaign<S: Side>(n: usize, d: usize, seed: u64) -> (f64, u64) {
    let start = Instant::now();
    let mut side = S::fresh(n, d, seed);
    let mut settings = Vec::new();
    let mut sum = 0u64;
    for number in 0..CAMPAIGN {
        trial(&mut side, d, number, &mut settings);
        sum = settings.iter().fold(sum, |h, b| h.rotate_left(9) ^ b);
        side.tell(number, value(&settings));
    }
    (start.elapsed().as_nanos() as f64, sum)
}

fn round<S: Side>(n: usize, d: usize, seed: u64) -> (Times, [u64; 2]) {
    let (sample, closing, generations_sum) = generations::<S>(n, d, seed);
    let (campaign, campaign_sum) = campaign::<S>(n, d, seed);
    (
        Times {
            sample,
            closing,
            campaign,
        },
        [generations_sum, campaign_sum],
    )
}

/// The most bytes that are in use at once over five generations, the lent history of one generation among them.
fn held<S: Side>(n: usize, d: usize) -> usize {
    let before = memory::now();
    memory::restart();
    let mut side = S::fresh(n, d, 1);
    let mut settings = Vec::with_capacity(d);
    let mut results = vec![0.0; n];
    side.tell(0, 0.0);
    let mut number = 0;
    trial(&mut side, d, number, &mut settings);
    for _ in 0..5 {
        let first = number + 1;
        for result in &mut results {
            number += 1;
            trial(&mut side, d, number, &mut settings);
            *result = value(&settings);
            side.forget();
        }
        for (slot, result) in results.iter().enumerate() {
            side.tell(first + slot as u64, *result);
        }
    }
    memory::most() - before
}

fn print(what: &str, n: usize, d: usize, proved: f64, rust: f64) {
    println!("time {what}/proved-{n}-{d} {proved:.0}");
    println!("time {what}/rust-{n}-{d} {rust:.0}");
    println!("ratio {what}/rust-{n}-{d} {:.2}", proved / rust);
}

fn main() {
    for (n, d) in SIZES {
        let (mut proved, mut rust) = (Times::NONE, Times::NONE);
        for seed in 0..ROUNDS as u64 {
            let (p, p_sums) = round::<Proved>(n, d, seed);
            let (r, r_sums) = round::<Rust>(n, d, seed);
            // What is timed is the same work: every setting of both sides is the same.
            assert_eq!(p_sums, r_sums, "the two sides differ at N = {n}, D = {d}, seed {seed}");
            proved = proved.least(p);
            rust = rust.least(r);
        }
        print("sample", n, d, proved.sample, rust.sample);
        print("closing", n, d, proved.closing, rust.closing);
        print("campaign", n, d, proved.campaign, rust.campaign);
        let (p, r) = (held::<Proved>(n, d), held::<Rust>(n, d));
        println!("bytes memory/proved-{n}-{d} {p}");
        println!("bytes memory/rust-{n}-{d} {r}");
        println!("ratio memory/rust-{n}-{d} {:.2}", p as f64 / r as f64);
    }
    draws::report();
    saved::report();
    export::report();
}
