//! The two samplers behind one set of calls.

use emkhurtov as proved;
use oracle::distribution as rust_distribution;
use oracle::param::ParamValue as RustValue;
use oracle::sampler::de::DESampler;
use oracle::sampler::{CompletedTrial as RustTrial, Sampler as _};

/// A setting as 64 bits, to be compared.
pub type Bits = u64;

/// A sampler with its own kind of history.
pub trait Side {
    fn fresh(n: usize, d: usize, seed: u64) -> Self;
    fn sample(&mut self, dimension: usize, trial: u64) -> Bits;
    fn tell(&mut self, trial: u64, value: f64);
    fn forget(&mut self);
}

/// Of every five dimensions one is a choice and one a whole number with a step; the rest are doubles. Two dimensions are two doubles.
fn kind(d: usize, i: usize) -> usize {
    if d == 2 { 0 } else { [0, 0, 1, 0, 2][i % 5] }
}

/// The dimensions as the proved library has them.
pub fn dimensions(d: usize) -> Vec<proved::Distribution> {
    let dimension = |i| match kind(d, i) {
        0 => proved::Distribution::float(-5.0, 5.0 + i as f64),
        1 => proved::Distribution::int_step(0, 1000, 5),
        _ => proved::Distribution::categorical(7),
    };
    (0..d).map(dimension).collect()
}

pub struct Proved {
    sampler: proved::Sampler,
    dimensions: Vec<proved::Distribution>,
    history: Vec<proved::CompletedTrial>,
}

impl Side for Proved {
    fn fresh(n: usize, d: usize, seed: u64) -> Self {
        let sampler = proved::Sampler::builder()
            .population_size(n as u64)
            .seed(seed)
            .build()
            .unwrap();
        Proved {
            sampler,
            dimensions: dimensions(d),
            history: Vec::new(),
        }
    }

    fn sample(&mut self, dimension: usize, trial: u64) -> Bits {
        match self
            .sampler
            .sample(&self.dimensions[dimension], trial, &self.history)
            .unwrap()
            .setting
        {
            proved::ParamValue::Float(x) => x.to_bits(),
            proved::ParamValue::Int(k) => k as u64,
            proved::ParamValue::Categorical(c) => c,
        }
    }

    fn tell(&mut self, number: u64, value: f64) {
        self.history.push(proved::CompletedTrial::new(number, value));
    }

    fn forget(&mut self) {
        self.history.clear();
    }
}

pub struct Rust {
    sampler: DESampler,
    dimensions: Vec<rust_distribution::Distribution>,
    history: Vec<RustTrial>,
}

impl Side for Rust {
    fn fresh(n: usize, d: usize, seed: u64) -> Self {
        let sampler = DESampler::builder().population_size(n).seed(seed).build();
        let dimension = |i| match kind(d, i) {
            0 => rust_distribution::Distribution::Float(rust_distribution::FloatDistribution {
                low: -5.0,
                high: 5.0 + i as f64,
                log_scale: false,
                step: None,
            }),
            1 => rust_distribution::Distribution::Int(rust_distribution::IntDistribution {
                low: 0,
                high: 1000,
                log_scale: false,
                step: Some(5),
            }),
            _ => rust_distribution::Distribution::Categorical(rust_distribution::CategoricalDistribution {
                n_choices: 7,
            }),
        };
        Rust {
            sampler,
            dimensions: (0..d).map(dimension).collect(),
            history: Vec::new(),
        }
    }

    fn sample(&mut self, dimension: usize, trial: u64) -> Bits {
        match self.sampler.sample(&self.dimensions[dimension], trial, &self.history) {
            RustValue::Float(x) => x.to_bits(),
            RustValue::Int(k) => k as u64,
            RustValue::Categorical(c) => c as u64,
        }
    }

    fn tell(&mut self, id: u64, value: f64) {
        self.history.push(RustTrial { id, value });
    }

    fn forget(&mut self) {
        self.history.clear();
    }
}
