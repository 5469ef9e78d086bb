//! Saved files: what is restored is what was saved, and what is no file of a sampler is refused.

use emkhurtov::{CompletedTrial, DEStrategy, Distribution, FileRefusal, MAX_FILE, Sampler};

const RECORD: usize = 32;

/// Every kind, with a step and without.
fn dimensions(d: usize) -> Vec<Distribution> {
    let kinds = [
        Distribution::float(-8.0, 256.0),
        Distribution::int_step(-5, 64, 3),
        Distribution::categorical(4),
        Distribution::float_step(0.0, 1.0, 0.125),
        Distribution::int(-(1 << 53), 1 << 53),
    ];
    kinds.into_iter().cycle().take(d).collect()
}

fn value(trial: u64) -> f64 {
    if trial % 11 == 4 {
        f64::INFINITY
    } else {
        (trial * 7919 % 1009) as f64
    }
}

/// What is saved is restored bit for bit, and saved again as the same bytes: the file.
fn round_trip(s: &Sampler) -> Vec<u8> {
    let file = s.save().unwrap();
    assert!(file.len() % RECORD == 0 && file.len() <= MAX_FILE);
    let restored = Sampler::restore(&file).unwrap();
    assert!(restored.state_bytes() == s.state_bytes());
    assert!(restored.save().unwrap() == file);
    file
}

/// A sampler that is restored from a file before each call goes on as one that never was.
fn campaign(strategy: DEStrategy, n: u64, d: usize, trials: u64) {
    let mut s = Sampler::builder()
        .strategy(strategy)
        .population_size(n)
        .build()
        .unwrap();
    let mut rebooted = s.clone();
    let mut history = Vec::new();
    for trial in 0..trials {
        for dimension in dimensions(d) {
            rebooted = Sampler::restore(&round_trip(&rebooted)).unwrap();
            let expected = s.sample(&dimension, trial, &history).unwrap();
            assert_eq!(rebooted.sample(&dimension, trial, &history), Ok(expected));
        }
        history.push(CompletedTrial::new(trial, value(trial)));
    }
    assert!(rebooted.state_bytes() == s.state_bytes());
    assert_eq!(rebooted.look(), s.look());
    assert!(s.look().unwrap().is_some());
}

#[test]
fn campaigns_go_on() {
    campaign(DEStrategy::Rand1, 4, 1, 60);
    campaign(DEStrategy::Best1, 5, 3, 40);
    campaign(DEStrategy::CurrentToBest1, 8, 5, 40);
}

/// A fresh sampler's file, byte by byte from docs/SAVED.md.
#[test]
fn a_fresh_file() {
    let s = Sampler::builder().mutation_factor(0.5).population_size(12).seed(300);
    let s = s.strategy(DEStrategy::CurrentToBest1).build().unwrap();
    let records: [[u64; 6]; 6] = [
        // next, kind, position, words; F, CR and the strategy
        [1, 1, 0, 0x3fe0_0000_0000_0000, 0x3fec_cccc_cccc_cccd, 2],
        // the size is set, the size, the seed
        [2, 1, 1, 1, 12, 300],
        [3, 2, 0, 0, 0, 0],
        [4, 2, 1, 0, 0, 0],
        [5, 2, 2, 0, 0, 0],
        // the generator starts from the seed
        [0, 2, 3, 300, 0, 0],
    ];
    let mut file = Vec::new();
    for [next, kind, position, words @ ..] in records {
        file.extend((next as u16).to_le_bytes());
        file.extend((kind as u16).to_le_bytes());
        file.extend((position as u32).to_le_bytes());
        file.extend(words.iter().flat_map(|word| word.to_le_bytes()));
    }
    assert_eq!(round_trip(&s), file);
}

/// 160 slots, 16 dimensions, a closed generation and 224 open trials.
#[test]
fn the_largest_file() {
    let mut s = Sampler::builder().population_size(160).build().unwrap();
    let dims = dimensions(16);
    let mut history = Vec::new();
    for trial in 0..=160 {
        for dimension in &dims {
            s.sample(dimension, trial, &[]).unwrap();
        }
        history.push(CompletedTrial::new(trial, value(trial)));
    }
    for trial in 161..161 + 224 {
        s.sample(&dims[0], trial, &history).unwrap();
    }
    assert_eq!(round_trip(&s).len(), MAX_FILE);
    // Rust's threads have the stack that this needs; so has one of 1.5 MB.
    let small = std::thread::Builder::new().stack_size(3 << 19);
    small.spawn(move || round_trip(&s)).unwrap().join().unwrap();
}

fn running() -> Sampler {
    let mut s = Sampler::builder().population_size(4).seed(3).build().unwrap();
    let mut history = Vec::new();
    for trial in 0..8 {
        for dimension in dimensions(3) {
            s.sample(&dimension, trial, &history).unwrap();
        }
        history.push(CompletedTrial::new(trial, value(trial)));
    }
    s
}

#[test]
fn lent_memory() {
    let s = running();
    let file = s.save().unwrap();
    let mut lent = vec![0xa5; file.len() + 40];
    for room in [0, 1, file.len() - RECORD, file.len() - 1] {
        assert_eq!(s.save_to(&mut lent[..room]), Err(FileRefusal::BadFile));
    }
    assert!(lent.iter().all(|byte| *byte == 0xa5));
    assert_eq!(s.save_to(&mut lent), Ok(file.len()));
    assert_eq!(lent[..file.len()], file);
    assert!(lent[file.len()..].iter().all(|byte| *byte == 0xa5));
    assert_eq!(s.save_to(&mut lent[..file.len()]), Ok(file.len()));
}

#[test]
fn cut_and_extended_files() {
    let s = running();
    let mut file = s.save().unwrap();
    for length in 0..file.len() {
        assert_eq!(Sampler::restore(&file[..length]).err(), Some(FileRefusal::BadFile));
    }
    // What stands behind the chain is ignored, if it is whole records.
    file.extend([0xff; RECORD]);
    assert!(Sampler::restore(&file).unwrap().state_bytes() == s.state_bytes());
    file.push(0);
    assert_eq!(Sampler::restore(&file).err(), Some(FileRefusal::BadFile));
}

/// Records in another order, at other places, with junk between them: the same sampler, saved in the canonical order.
#[test]
fn reordered_files() {
    let s = running();
    let file = s.save().unwrap();
    let records: Vec<&[u8]> = file.chunks(RECORD).collect();
    let n = records.len();
    // Record 0 starts the chain; the others follow from the last to the first, each at every other place.
    let mut other = vec![0xff; RECORD * 2 * n];
    for (i, record) in records.iter().rev().enumerate() {
        let at = RECORD * 2 * i;
        let next = if i + 1 < n { 2 * (i + 1) } else { 0 };
        other[at..at + RECORD].copy_from_slice(record);
        other[at..at + 2].copy_from_slice(&(next as u16).to_le_bytes());
    }
    let restored = Sampler::restore(&other).unwrap();
    assert!(restored.state_bytes() == s.state_bytes());
    assert!(restored.save().unwrap() == file);
}

/// Every byte changed in turn: refused, or a sampler that saves as these very bytes.
#[test]
fn damaged_files() {
    let file = running().save().unwrap();
    let (mut refused, mut restored) = (0, 0);
    for at in 0..file.len() {
        for bit in [0x01, 0x10, 0x80] {
            let mut damaged = file.clone();
            damaged[at] ^= bit;
            match Sampler::restore(&damaged) {
                Ok(sampler) => {
                    assert!(sampler.save().unwrap() == damaged && sampler.look().is_ok());
                    restored += 1;
                }
                Err(_) => refused += 1,
            }
        }
    }
    assert!(refused > 0 && restored > 0);
}

#[test]
fn refusals_say_why() {
    fn shared<T: Send + Sync + Clone + std::error::Error + 'static>() {}
    shared::<FileRefusal>();
    assert_eq!(
        [FileRefusal::BadFile, FileRefusal::BadContent].map(FileRefusal::number),
        [12, 13]
    );
    let garbage = Sampler::restore(&[0; RECORD]).unwrap_err();
    assert_eq!(
        garbage.to_string(),
        "refusal 13: what the file holds, or the state that is to be saved, is none that a sampler can have, or the \
         state's bounds rule is midpoint or one of its dimensions is a ladder"
    );
}
