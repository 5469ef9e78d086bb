//! Look's idle count, held against the count that the counted results alone give: how many generations closed after the
//! last that counted a result smaller than every result counted before it.

use emkhurtov::{CompletedTrial, Distribution, Sampler};

const SLOTS: usize = 4;

/// A campaign, and what each closed generation counted.
struct Campaign {
    sampler: Sampler,
    next: u64,
    counted: Vec<Vec<f64>>,
}

/// The count by these alone.
fn idle_by(counted: &[Vec<f64>]) -> usize {
    let lowers = |g: usize| {
        counted[g]
            .iter()
            .any(|result| counted[..g].iter().flatten().all(|earlier| result < earlier))
    };
    (0..counted.len()).rev().take_while(|&g| !lowers(g)).count()
}

impl Campaign {
    /// Discovery is behind it.
    fn new() -> Self {
        let mut sampler = Sampler::builder().population_size(SLOTS as u64).build().unwrap();
        sampler.sample(&Distribution::int(0, 9), 0, &[]).unwrap();
        let (next, counted) = (1, Vec::new());
        Self { sampler, next, counted }
    }

    /// One generation with these results, the first four for the slots and the others for extras; the count after it.
    fn closes(&mut self, results: &[f64]) -> u64 {
        let trials: Vec<_> = (self.next..)
            .zip(results)
            .map(|(trial, &result)| CompletedTrial::new(trial, result))
            .collect();
        let dimension = Distribution::int(0, 9);
        for trial in &trials {
            self.sampler.sample(&dimension, trial.number, &[]).unwrap();
        }
        // A call past the trial's only dimension closes the generation, and the trial is the next one's first.
        self.next = trials[0].number;
        self.sampler.sample(&dimension, self.next, &trials).unwrap();
        self.counted.push(results[..SLOTS].to_vec());
        let look = self.sampler.look().unwrap().unwrap();
        assert_eq!(look.closed, self.counted.len() as u64);
        assert_eq!(look.idle, idle_by(&self.counted) as u64, "{:?}", self.counted);
        look.idle
    }
}

/// "On a flat objective every result ties": every generation but the first is idle.
#[test]
fn a_flat_objective() {
    for flat in [3.0, -0.0, f64::INFINITY, f64::NEG_INFINITY] {
        let mut c = Campaign::new();
        for closed in 0..20 {
            assert_eq!(c.closes(&[flat; SLOTS]), closed);
        }
    }
}

#[test]
fn what_resets_it() {
    let mut c = Campaign::new();
    let counts: Vec<u64> = [
        [5.0, 3.0, 4.0, 3.0],
        // Larger ones, ties, a slot that becomes smaller and stays above the least, and one that comes to it.
        [6.0, 3.5, 4.5, 3.5],
        [5.0, 3.0, 4.0, 3.0],
        [4.0, 9.0, 9.0, 9.0],
        [3.0, 9.0, 9.0, 9.0],
        // A smaller least; a zero, and then the zero of the other sign; minus infinity.
        [2.0, 9.0, 9.0, 9.0],
        [9.0, 0.0, 9.0, 9.0],
        [9.0, -0.0, 9.0, -0.0],
        [f64::NEG_INFINITY, 9.0, 9.0, 9.0],
        [f64::NEG_INFINITY; SLOTS],
    ]
    .iter()
    .map(|results| c.closes(results))
    .collect();
    assert_eq!(counts, [0, 1, 2, 3, 4, 0, 0, 1, 0, 1]);
}

/// An extra's result is counted for no slot.
#[test]
fn extras_reset_nothing() {
    let mut c = Campaign::new();
    assert_eq!(c.closes(&[5.0, 5.0, 5.0, 5.0, 1.0]), 0);
    assert_eq!(c.closes(&[5.0, 5.0, 5.0, 5.0, 0.0, -1.0]), 1);
    assert_eq!(c.closes(&[4.0, 5.0, 5.0, 5.0]), 0);
}

/// Results of a few values, so that there are ties; and a restart after each generation.
#[test]
fn campaigns_of_few_values() {
    let values = [-1.0, -0.0, 0.0, 1.0, 2.0, 3.0, 4.0, f64::INFINITY];
    let mut word = 1u64;
    let mut largest = 0;
    for values in [&values[..], &values[3..], &values[1..3]] {
        for _ in 0..20 {
            let mut c = Campaign::new();
            for _ in 0..20 {
                let mut results = [0.0; SLOTS];
                for result in &mut results {
                    word = word.wrapping_mul(0x5851_f42d_4c95_7f2d).wrapping_add(1);
                    *result = values[(word >> 33) as usize % values.len()];
                }
                largest = largest.max(c.closes(&results));
                c.sampler = Sampler::restore(&c.sampler.save().unwrap()).unwrap();
            }
        }
    }
    assert_eq!(largest, 19);
}
