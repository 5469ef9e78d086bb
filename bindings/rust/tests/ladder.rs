//! Ladders, held against a second reading of document 02 (W9): what is refused, drawn and decoded, and that a file has
//! no place for one.

use std::sync::LazyLock;

use emkhurtov::{
    BoundsRule, CompletedTrial, DEStrategy, Distribution, FileRefusal, FloatDistribution, IntDistribution, MAX_FILE,
    ParamValue, Refusal, Sampler, to_internal,
};

const SLOTS: u64 = 6;
const MOST: i64 = 2_147_483_648;
const RULES: [BoundsRule; 2] = [BoundsRule::Clamp, BoundsRule::Midpoint];
const STRATEGIES: [DEStrategy; 3] = [DEStrategy::Rand1, DEStrategy::Best1, DEStrategy::CurrentToBest1];
/// Low and high: around one rung, around a number that is none, and the widest.
const LADDERS: [(i64, i64); 10] = [
    (1, 64),
    (1, 1),
    (2, 2),
    (3, 5),
    (373, 374),
    (374, 374),
    (1000, 1_000_000),
    (MOST - 1, MOST),
    (MOST, MOST),
    (1, MOST),
];

/// The square of a number in words of 32 bits, the lowest first.
fn squared(x: &[u32]) -> Vec<u32> {
    let mut y = vec![0; 2 * x.len()];
    for (i, a) in x.iter().enumerate() {
        let mut sum = 0;
        for (k, b) in x.iter().enumerate() {
            sum += u64::from(*a) * u64::from(*b) + u64::from(y[i + k]);
            y[i + k] = sum as u32;
            sum >>= 32;
        }
        y[i + x.len()] = sum as u32;
    }
    while y.last() == Some(&0) {
        y.pop();
    }
    y
}

/// Whether r^256 is at most 2^p.
fn at_most_power(r: i64, p: usize) -> bool {
    let x = (0..8).fold(vec![r as u32], |x, _| squared(&x));
    let mut power = vec![0; p / 32 + 1];
    power[p / 32] = 1 << (p % 32);
    let longer = x.len().cmp(&power.len());
    longer.then_with(|| x.iter().rev().cmp(power.iter().rev())).is_le()
}

/// R(p) at place p: twice what it is 256 positions before, or one more.
static RUNGS: LazyLock<Vec<i64>> = LazyLock::new(|| {
    let mut rungs = Vec::new();
    for p in 0..=7936 {
        let r = if p < 256 { 1 } else { 2 * rungs[p - 256] };
        rungs.push(r + i64::from(at_most_power(r + 1, p)));
    }
    rungs
});

/// "The inner lower bound is 0 for low 1, else the largest p with R(p) below low; the upper is the least p with R(p) at
/// least high."
fn inner_bounds(low: i64, high: i64) -> (usize, usize) {
    let below = RUNGS.iter().rposition(|r| *r < low);
    let from = if low == 1 { 0 } else { below.unwrap() };
    (from, RUNGS.iter().position(|r| *r >= high).unwrap())
}

/// "Decoding clamps the entry to the inner bounds, rounds to p, takes R(p) and clamps that to low and high."
fn decoded(entry: f64, low: i64, high: i64) -> i64 {
    let (from, to) = inner_bounds(low, high);
    let p = entry.clamp(from as f64, to as f64).round() as usize;
    RUNGS[p].clamp(low, high)
}

/// "draws p by `i64` from the inner bounds, both included, and decodes it": from the generator's word before the draw.
fn drawn(word: u64, low: i64, high: i64) -> i64 {
    let z = word.wrapping_add(0x9e37_79b9_7f4a_7c15);
    let z = (z ^ z >> 30).wrapping_mul(0xbf58_476d_1ce4_e5b9);
    let z = (z ^ z >> 27).wrapping_mul(0x94d0_49bb_1331_11eb);
    let (from, to) = inner_bounds(low, high);
    let p = from + ((z ^ z >> 31) % (to - from + 1) as u64) as usize;
    RUNGS[p].clamp(low, high)
}

/// What stands at this place of the state, by the header's struct.
fn at(s: &Sampler, place: usize) -> [u8; 8] {
    s.state_bytes()[place..place + 8].try_into().unwrap()
}

fn word(s: &Sampler) -> u64 {
    u64::from_ne_bytes(at(s, 67_696))
}

/// Entry j of candidate i.
fn entry(s: &Sampler, i: u64, j: usize) -> f64 {
    f64::from_ne_bytes(at(s, 1376 + 160 * i as usize + 8 * j))
}

fn int_log(low: i64, high: i64, step: Option<i64>) -> Distribution {
    Distribution::Int(IntDistribution {
        low,
        high,
        log_scale: true,
        step,
    })
}

fn float_log(low: f64, high: f64, step: Option<f64>) -> Distribution {
    Distribution::Float(FloatDistribution {
        low,
        high,
        log_scale: true,
        step,
    })
}

#[test]
fn rungs_keep_their_rule() {
    assert_eq!(RUNGS.len(), 7937);
    for (p, r) in RUNGS.iter().enumerate() {
        assert!(at_most_power(*r, p) && !at_most_power(r + 1, p));
    }
    assert_eq!([0, 255, 256, 405, 406, 7936].map(|p| RUNGS[p]), [1, 1, 2, 2, 3, MOST]);
    assert_eq!(inner_bounds(1, 64), (0, 1536));
    assert_eq!(inner_bounds(3, 5), (405, 595));
    assert_eq!(Distribution::int_log(3, 5), int_log(3, 5, None));
}

#[test]
fn refusals() {
    let cases = [
        (int_log(0, 64, None), Refusal::LogScale),
        (int_log(-64, 64, None), Refusal::LogScale),
        (int_log(1, MOST + 1, None), Refusal::LogScale),
        (int_log(MOST + 1, MOST + 1, None), Refusal::LogScale),
        (int_log(1, 1 << 53, None), Refusal::LogScale),
        (int_log(1, 64, Some(1)), Refusal::LogScale),
        (int_log(1, 64, Some(0)), Refusal::LogScale),
        (float_log(1.0, 64.0, None), Refusal::LogScale),
        (float_log(1.0, 64.0, Some(0.0)), Refusal::LogScale),
        // 4 comes first.
        (int_log(3, 2, None), Refusal::Bounds),
        (int_log(0, -1, Some(0)), Refusal::Bounds),
        (int_log(1, (1 << 53) + 1, None), Refusal::Bounds),
        (int_log(i64::MIN, i64::MAX, None), Refusal::Bounds),
        (float_log(2.0, 1.0, None), Refusal::Bounds),
    ];
    let mut s = Sampler::builder().population_size(SLOTS).build().unwrap();
    for trial in [0, 0, 1, 1] {
        let before = s.state_bytes().to_vec();
        for (distribution, refusal) in cases {
            assert_eq!(s.sample(&distribution, trial, &[]), Err(refusal), "{distribution:?}");
            assert_eq!(to_internal(&distribution, ParamValue::Int(8)), Err(refusal));
        }
        assert!(s.state_bytes() == before);
        s.sample(&Distribution::int_log(1, 64), trial, &[]).unwrap();
    }
    for (low, high) in LADDERS {
        for setting in [
            ParamValue::Int(low),
            ParamValue::Int(i64::MAX),
            ParamValue::Float(1.0),
            ParamValue::Categorical(0),
        ] {
            let ladder = Distribution::int_log(low, high);
            assert_eq!(to_internal(&ladder, setting), Err(Refusal::LogScale));
        }
    }
}

/// In discovery, and past the last dimension.
#[test]
fn draws() {
    for seed in 0..200 {
        let mut s = Sampler::builder().seed(seed).population_size(SLOTS).build().unwrap();
        for (low, high) in LADDERS {
            let expected = drawn(word(&s), low, high);
            let sampled = s.sample(&Distribution::int_log(low, high), 0, &[]).unwrap();
            assert_eq!((sampled.setting, sampled.draws), (ParamValue::Int(expected), 1));
        }
        for _ in LADDERS {
            s.sample(&Distribution::int(1, 64), 1, &[]).unwrap();
        }
        for (low, high) in LADDERS {
            let expected = drawn(word(&s), low, high);
            let sampled = s.sample(&Distribution::int_log(low, high), 1, &[]).unwrap();
            assert_eq!((sampled.setting, sampled.draws), (ParamValue::Int(expected), 1));
        }
    }
}

/// Each setting is decoded from its candidate's entry, which lies between the inner bounds. What is lent later does not
/// decide.
fn campaign(rule: BoundsRule, strategy: DEStrategy, seed: u64) {
    let builder = Sampler::builder().population_size(SLOTS).strategy(strategy).seed(seed);
    let mut s = builder.bounds_rule(rule).build().unwrap();
    let mut history = Vec::new();
    let mut tried = Vec::new();
    for trial in 0..1 + 30 * SLOTS {
        let mut settings = Vec::new();
        for (j, (low, high)) in LADDERS.into_iter().enumerate() {
            let lent = if trial % 5 == 4 {
                Distribution::int(1, 64)
            } else {
                Distribution::int_log(low, high)
            };
            let sampled = s.sample(&lent, trial, &history).unwrap();
            settings.push(sampled.setting);
            if trial == 0 {
                continue;
            }
            let (from, to) = inner_bounds(low, high);
            let x = entry(&s, (trial - 1) % SLOTS, j);
            assert!((from as f64..=to as f64).contains(&x));
            assert_eq!(sampled.setting, ParamValue::Int(decoded(x, low, high)));
            let makes = j == 0 && trial % SLOTS == 1;
            assert_eq!(sampled.draws > 0, makes);
        }
        // The best depth is 12, and the first entry of many ties.
        let depth = settings[0].as_i64().unwrap();
        history.push(CompletedTrial::new(trial, ((depth - 12) * (depth - 12) / 9) as f64));
        tried.push(settings);
    }
    let look = s.look().unwrap().unwrap();
    assert_eq!(look.closed, 29);
    for (slot, value) in look.values.iter().enumerate() {
        let held = s.slot_settings(slot).unwrap().unwrap();
        assert!(
            (1..)
                .zip(&history[1..])
                .any(|(t, told)| told.value == *value && tried[t as usize] == held)
        );
    }
    assert_eq!(s.slot_settings(look.best), Ok(Some(look.settings)));
}

#[test]
fn campaigns() {
    for rule in RULES {
        for strategy in STRATEGIES {
            for seed in 0..5 {
                campaign(rule, strategy, seed);
            }
        }
    }
}

/// 13, before 12, in any room, and nothing is written; the sampler is as it was, and goes on.
#[test]
fn files_have_no_place_for_it() {
    for dimension in 0..3 {
        let mut s = Sampler::builder().population_size(SLOTS).build().unwrap();
        for trial in 0..3 * SLOTS {
            let history: Vec<_> = (0..trial).map(|t| CompletedTrial::new(t, t as f64)).collect();
            for asked in 0..3 {
                let before = s.state_bytes().to_vec();
                let mut lent = [0xa5; MAX_FILE];
                if trial > 0 || asked > dimension {
                    for room in [0, 1000, MAX_FILE] {
                        assert_eq!(s.save_to(&mut lent[..room]), Err(FileRefusal::BadContent));
                    }
                    assert!(lent.iter().all(|byte| *byte == 0xa5));
                    assert_eq!(s.save(), Err(FileRefusal::BadContent));
                } else {
                    let restored = Sampler::restore(&s.save().unwrap()).unwrap();
                    assert!(restored.state_bytes() == before);
                }
                assert!(s.state_bytes() == before);
                let lent = if asked == dimension {
                    Distribution::int_log(1, 64)
                } else {
                    Distribution::int(1, 64)
                };
                s.sample(&lent, trial, &history).unwrap();
            }
        }
        assert_eq!(s.look().unwrap().unwrap().closed, 2);
    }
}
