//! How long a save and a restore take, and the refusal of a file whose chain never ends.

use std::hint::black_box;
use std::time::Instant;

use emkhurtov::{CompletedTrial, FileRefusal, MAX_FILE, Sampler};

use crate::sides::dimensions;
use crate::value;

const SIZES: [(u64, usize); 3] = [(20, 2), (50, 5), (160, 16)];
const EXTRAS: u64 = 64;
const RECORDS: [usize; 3] = [4_096, 16_384, 65_535];
const ROUNDS: usize = 200;

/// After a closing, with as many trials open as there can be.
fn full(n: u64, d: usize) -> Sampler {
    let dimensions = dimensions(d);
    let mut sampler = Sampler::builder().population_size(n).seed(1).build().unwrap();
    for dimension in &dimensions {
        sampler.sample(dimension, 0, &[]).unwrap();
    }
    for trial in 1..=n {
        sampler.sample(&dimensions[0], trial, &[]).unwrap();
    }
    let told: Vec<_> = (1..=n)
        .map(|trial| CompletedTrial::new(trial, value(&[trial])))
        .collect();
    for trial in n + 1..=n + n + EXTRAS {
        sampler.sample(&dimensions[0], trial, &told).unwrap();
    }
    sampler
}

/// Each record leads to the next, and the last one back to record 1.
fn endless(records: usize) -> Vec<u8> {
    let mut file = vec![0; 32 * records];
    for k in 0..records {
        let next = if k + 1 < records { k + 1 } else { 1 };
        file[32 * k..32 * k + 2].copy_from_slice(&(next as u16).to_le_bytes());
    }
    file
}

/// The least time of some rounds, in nanoseconds.
pub fn least(rounds: usize, mut run: impl FnMut()) -> f64 {
    (0..rounds).fold(f64::INFINITY, |least, _| {
        let start = Instant::now();
        run();
        least.min(start.elapsed().as_nanos() as f64)
    })
}

/// A save and a restore of each size, the largest file last; then files of more and more records that are refused.
pub fn report() {
    let mut lent = vec![0; MAX_FILE];
    for (n, d) in SIZES {
        let sampler = full(n, d);
        let file = sampler.save().unwrap();
        println!("bytes saved/file-{n}-{d} {}", file.len());
        let save = least(ROUNDS, || {
            black_box(sampler.save_to(black_box(&mut lent)).unwrap());
        });
        println!("time saved/save-{n}-{d} {save:.0}");
        let restore = least(ROUNDS, || {
            black_box(Sampler::restore(black_box(&file)).unwrap());
        });
        println!("time saved/restore-{n}-{d} {restore:.0}");
        let again = Sampler::restore(&file).unwrap().save();
        assert_eq!(again.as_ref(), Ok(&file), "another state came back");
    }
    for records in RECORDS {
        let file = endless(records);
        let refuse = least(ROUNDS, || {
            let answer = Sampler::restore(black_box(&file));
            assert_eq!(answer.err(), Some(FileRefusal::BadFile));
        });
        println!("time saved/endless-{records} {refuse:.0}");
    }
}
