//! The largest count of draws that a call of the proved library makes over many generations, next to its ceiling.

use emkhurtov::{CompletedTrial, DEStrategy, Distribution, Sampler, draw_ceiling};

use crate::sides::dimensions;
use crate::value;

const SIZES: [(u64, usize); 4] = [(4, 1), (20, 2), (50, 5), (160, 16)];
const STRATEGIES: [(DEStrategy, &str); 3] = [
    (DEStrategy::Rand1, "rand1"),
    (DEStrategy::Best1, "best1"),
    (DEStrategy::CurrentToBest1, "current-to-best1"),
];
const GENERATIONS: u64 = 200;

/// A campaign, and the largest counts so far.
struct Campaign {
    sampler: Sampler,
    dimensions: Vec<Distribution>,
    history: Vec<CompletedTrial>,
    /// Of the calls that close a generation or end discovery.
    generation: u64,
    /// Of all others.
    other: u64,
    /// Of those among them whose trial already has a candidate.
    candidate: u64,
}

impl Campaign {
    fn fresh(strategy: DEStrategy, n: u64, d: usize) -> Self {
        let builder = Sampler::builder().strategy(strategy).population_size(n).seed(1);
        Campaign {
            sampler: builder.build().unwrap(),
            dimensions: dimensions(d),
            history: Vec::new(),
            generation: 0,
            other: 0,
            candidate: 0,
        }
    }

    fn draws(&mut self, dimension: usize, trial: u64) -> u64 {
        let lent = &self.dimensions[dimension];
        self.sampler.sample(lent, trial, &self.history).unwrap().draws
    }

    /// The first trial asks for every dimension.
    fn discover(&mut self) {
        for dimension in 0..self.dimensions.len() {
            self.other = self.other.max(self.draws(dimension, 0));
        }
    }

    /// The first call of a generation's first trial ends discovery or closes the generation before.
    fn begin(&mut self, first: u64) {
        self.generation = self.generation.max(self.draws(0, first));
    }

    /// The generation's other trials, and an extra. One call of each will do: the next ones draw nothing.
    fn go_on(&mut self, first: u64, n: u64) {
        for trial in first + 1..=first + n {
            self.other = self.other.max(self.draws(0, trial));
        }
        // The extra asks on to past its last dimension.
        let d = self.dimensions.len();
        for dimension in 1..=d {
            self.candidate = self.candidate.max(self.draws(dimension % d, first + n));
        }
        self.other = self.other.max(self.candidate);
    }

    fn run(&mut self, n: u64) {
        let mut first = 1;
        self.discover();
        self.begin(first);
        for _ in 0..GENERATIONS {
            self.go_on(first, n);
            let tell = |trial| CompletedTrial::new(trial, value(&[trial]));
            self.history = (first..first + n).map(tell).collect();
            first += n + 1;
            self.begin(first);
        }
        let closed = self.sampler.look().unwrap().map(|look| look.closed);
        assert_eq!(closed, Some(GENERATIONS), "not every generation has closed");
    }
}

fn print(name: &str, seen: u64, ceiling: u64) {
    println!("draws {name} {seen} {ceiling}");
    assert!(
        seen <= ceiling,
        "{name}: a call drew {seen}, over its ceiling {ceiling}"
    );
}

/// Three lines for each strategy and size. It stops where a call drew more than its ceiling.
pub fn report() {
    for (strategy, name) in STRATEGIES {
        for (n, d) in SIZES {
            let mut c = Campaign::fresh(strategy, n, d);
            c.run(n);
            let ceiling = draw_ceiling(n, d as u64, strategy);
            print(&format!("generation/{name}-{n}-{d}"), c.generation, ceiling);
            print(&format!("other/{name}-{n}-{d}"), c.other, d as u64);
            print(&format!("candidate/{name}-{n}-{d}"), c.candidate, 1);
        }
    }
}
