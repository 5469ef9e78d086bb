//! Entries up to 4e300 in size and beyond: in files, and what campaigns of the widest bounds make.

use emkhurtov::{BoundsRule, CompletedTrial, DEStrategy, Distribution, FileRefusal, ParamValue, Sampler};

const RULES: [BoundsRule; 2] = [BoundsRule::Clamp, BoundsRule::Midpoint];
const STRATEGIES: [DEStrategy; 3] = [DEStrategy::Rand1, DEStrategy::Best1, DEStrategy::CurrentToBest1];

// ---- Files.

/// Where the word of a kind stands in the file (docs/SAVED.md).
fn word_at(file: &[u8], kind: u8, word: usize) -> usize {
    let place = (word / 3) as u8;
    let record = file
        .chunks(32)
        .position(|r| r[2..8] == [kind, 0, place, 0, 0, 0])
        .unwrap();
    32 * record + 8 + 8 * (word % 3)
}

/// A sampler of four slots in a Float, a choice and an Int, with parents and two open trials; and its history.
fn running() -> (Sampler, Vec<CompletedTrial>) {
    let mut s = Sampler::builder().population_size(4).seed(3).build().unwrap();
    let mut history = Vec::new();
    for trial in 0..7 {
        for dimension in mixed() {
            s.sample(&dimension, trial, &history).unwrap();
        }
        history.push(CompletedTrial::new(trial, (trial * 7919 % 1009) as f64));
    }
    assert_eq!(s.look().unwrap().unwrap().closed, 1);
    (s, history)
}

fn mixed() -> [Distribution; 3] {
    [
        Distribution::float(-8.0, 256.0),
        Distribution::categorical(4),
        Distribution::int(1, 64),
    ]
}

/// The kind and the words of a slot's two entries: parents have four words each, candidates three.
const ENTRIES: [(u8, usize); 8] = [(5, 0), (5, 2), (5, 12), (5, 14), (6, 0), (6, 2), (6, 9), (6, 11)];

fn with_word(file: &[u8], (kind, word): (u8, usize), value: f64) -> Vec<u8> {
    let at = word_at(file, kind, word);
    let mut changed = file.to_vec();
    changed[at..at + 8].copy_from_slice(&value.to_le_bytes());
    changed
}

#[test]
fn files_of_entries_up_to_4e300() {
    let (s, history) = running();
    let file = s.save().unwrap();
    for entry in ENTRIES {
        for value in [4e300, -4e300, 3.9999999999999996e300, 1.1e300, -0.0] {
            let file = with_word(&file, entry, value);
            let mut restored = Sampler::restore(&file).unwrap();
            assert!(restored.save().unwrap() == file && restored.look().is_ok());
            // It goes on for four generations, within its bounds.
            let mut history = history.clone();
            for trial in 7..7 + 16 {
                let [x, choice, k] = mixed().map(|d| restored.sample(&d, trial, &history).unwrap().setting);
                assert!((-8.0..=256.0).contains(&x.as_f64().unwrap()) && choice.as_choice().unwrap() < 4);
                assert!((1..=64).contains(&k.as_i64().unwrap()));
                history.push(CompletedTrial::new(trial, (trial * 7919 % 1009) as f64));
            }
            assert_eq!(restored.look().unwrap().unwrap().closed, 5);
        }
    }
}

#[test]
fn files_of_larger_entries_are_refused() {
    let file = running().0.save().unwrap();
    let over = 4.000000000000001e300;
    assert_eq!(4e300_f64.to_bits() + 1, f64::to_bits(over));
    for entry in ENTRIES {
        for value in [
            over,
            -over,
            5e300,
            1e308,
            -1e308,
            f64::MAX,
            f64::INFINITY,
            -f64::INFINITY,
            f64::NAN,
        ] {
            let refusal = Sampler::restore(&with_word(&file, entry, value)).err();
            assert_eq!(refusal, Some(FileRefusal::BadContent), "{entry:?} {value:e}");
        }
    }
}

// ---- Campaigns.

/// Where the state has its candidates, of 160 bytes each, and its parents, of 168: their entries come first.
const CANDIDATES: usize = 1376;
const PARENTS: usize = 37216;
const ROWS: usize = 160;

/// Whether every entry of the state is at most 1e300 in size, those of places that are not in use too.
fn entries_are_small(s: &Sampler) -> bool {
    let rows = (0..ROWS).flat_map(|i| [CANDIDATES + 160 * i, PARENTS + 168 * i]);
    rows.flat_map(|row| (0..16).map(move |j| row + 8 * j)).all(|at| {
        let entry = f64::from_ne_bytes(s.state_bytes()[at..at + 8].try_into().unwrap());
        entry.abs() <= 1e300
    })
}

/// F = 2, CR = 1 and the widest bounds: every call has a setting within its bounds.
fn campaign(rule: BoundsRule, strategy: DEStrategy, n: u64, generations: u64) {
    let dimensions = [
        Distribution::float(-1e300, 1e300),
        Distribution::float_step(-1e300, 1e300, 1e291),
        Distribution::int(-(1 << 53), 1 << 53),
    ];
    let builder = Sampler::builder().mutation_factor(2.0).crossover_rate(1.0).seed(n);
    let builder = builder.strategy(strategy).population_size(n).bounds_rule(rule);
    let mut s = builder.build().unwrap();
    let mut told = Vec::new();
    let mut on_a_bound = 0;
    for trial in 0..=1 + n * generations {
        let settings = dimensions.map(|d| s.sample(&d, trial, &told).unwrap().setting);
        let [ParamValue::Float(x), ParamValue::Float(y), ParamValue::Int(k)] = settings else {
            panic!("{settings:?}");
        };
        assert!(x.abs() <= 1e300 && y.abs() <= 1e300 && k.unsigned_abs() <= 1 << 53);
        on_a_bound += u64::from(x.abs() == 1e300);
        // The last N results will do. Many ties, so that parents change often.
        if told.len() == n as usize {
            told.remove(0);
        }
        told.push(CompletedTrial::new(trial, (trial * 7919 % 1009 % 3) as f64));
        assert!(entries_are_small(&s));
    }
    assert_eq!(s.look().unwrap().unwrap().closed, generations);
    // Mutants were beyond the bounds: clamp piled them up there, midpoint did not.
    assert!(if rule == BoundsRule::Clamp {
        on_a_bound > generations
    } else {
        on_a_bound < 3
    });
}

#[test]
fn the_widest_bounds() {
    for rule in RULES {
        for strategy in STRATEGIES {
            campaign(rule, strategy, 4, 200);
            campaign(rule, strategy, 12, 80);
            campaign(rule, strategy, 40, 30);
        }
    }
}
