//! A stand-in for a gateway's disk, the one of the example campaign (bindings/rust/examples/gateway.rs): four
//! dimensions and an objective without noise.

use crate::distribution::Distribution;
use crate::generate::distributions::{choice, float, int};
use crate::param::ParamValue;
use crate::sampler::common::from_internal;
use crate::sampler::de::{Probe, Vector};

/// Block quota, flush interval, queue depth, I/O scheduler.
pub const DIMS: usize = 4;

/// What a trial runs with, as numbers.
pub type Settings = [f64; DIMS];

/// The dimensions, in the order in which every trial asks for them.
pub fn dimensions() -> [Distribution; DIMS] {
    [
        float(8.0, 256.0, Some(0.5)),
        int(5, 500, Some(5)),
        int(1, 64, None),
        choice(4),
    ]
}

/// How long the line controller waits for a write (99th percentile, ms).
pub fn measure(&[quota, flush, depth, scheduler]: &Settings) -> f64 {
    let (base, suits) = [(3.1, 6.0), (1.4, 18.0), (0.9, 12.0), (1.1, 30.0)][scheduler as usize];
    let quota = (quota - 92.0) / 48.0;
    let flush = (flush - 120.0) / 90.0;
    let depth = (depth - suits) / 10.0;
    base + 4.0 * quota * quota + 1.5 * flush * flush + depth * depth + 0.8 * quota * depth
}

/// What a trial makes of an answer: the number, whole where it asked for a whole one, brought into the range that it
/// asked for. An answer of its own dimension stays as it is.
pub fn as_asked(answer: &ParamValue, asked: &Distribution) -> f64 {
    let number = match *answer {
        ParamValue::Float(x) => x,
        ParamValue::Int(k) => k as f64,
        ParamValue::Categorical(index) => index as f64,
    };
    match asked {
        Distribution::Float(d) => number.clamp(d.low, d.high),
        Distribution::Int(d) => number.round().clamp(d.low as f64, d.high as f64),
        Distribution::Categorical(d) => number.round().clamp(0.0, (d.n_choices - 1) as f64),
    }
}

/// The settings of a candidate or parent, by the Rust's own decoding. All dimensions must have been discovered.
pub fn decoded(p: &Probe<'_>, vector: &Vector<'_>) -> Settings {
    let mut settings = [0.0; DIMS];
    for (dim, setting) in settings.iter_mut().enumerate() {
        let d = p.distribution(dim);
        *setting = match vector.choices().find(|(at, _)| *at == dim) {
            Some((_, choice)) => choice as f64,
            None => as_asked(&from_internal(vector.entries[p.entry_of(dim)], d), d),
        };
    }
    settings
}
