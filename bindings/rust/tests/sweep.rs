//! Sweeps, held against a second reading of document 02 (W10): lists by hand and of many random spaces, the limit, what is
//! touched, and campaigns whose trials are looked up in a sweep.

mod second_sweep;

use emkhurtov::{
    CompletedTrial, Distribution, IntDistribution, MAX_COMBINATIONS, ParamValue, Sampler, SweepRefusal, sweep,
    sweep_into,
};
use second_sweep::{MOST, choice, int, number, stepped, taken, taken_into};

// ---- Lists.

#[test]
fn by_hand() {
    let dims = [choice(2), stepped(1, 11, 4), int(-1, 0)];
    let mut numbers = [77; 37];
    assert_eq!(sweep_into(&dims, &mut numbers), Ok(12));
    let expected = [
        0, 1, -1, 0, 1, 0, 0, 5, -1, 0, 5, 0, 0, 9, -1, 0, 9, 0, 1, 1, -1, 1, 1, 0, 1, 5, -1, 1, 5, 0, 1, 9, -1, 1, 9,
        0, 77,
    ];
    assert_eq!(numbers, expected);
    let all = taken(&dims).unwrap();
    assert_eq!(
        all[7],
        [ParamValue::Categorical(1), ParamValue::Int(1), ParamValue::Int(0)]
    );
    let cases: [(Distribution, &[i64]); 9] = [
        (stepped(1, 9, 4), &[1, 5, 9]),
        (stepped(1, 10, 4), &[1, 5, 9]),
        (stepped(1, 12, 4), &[1, 5, 9]),
        (stepped(-7, 0, 3), &[-7, -4, -1]),
        (stepped(5, 5, MOST), &[5]),
        (stepped(-MOST, MOST, MOST), &[-MOST, 0, MOST]),
        (stepped(-MOST, MOST, MOST - 1), &[-MOST, -1, MOST - 2]),
        (int(MOST - 1, MOST), &[MOST - 1, MOST]),
        (choice(3), &[0, 1, 2]),
    ];
    for (d, values) in cases {
        let mut numbers = vec![77; values.len()];
        assert_eq!(sweep_into(&[d], &mut numbers), Ok(values.len()));
        assert_eq!(numbers, values);
        taken(&[d]).unwrap();
    }
}

/// Numbers that look drawn.
struct Drawn(u64);

impl Drawn {
    fn to(&mut self, most: u64) -> u64 {
        let mut word = 0;
        for _ in 0..2 {
            self.0 = self
                .0
                .wrapping_mul(6_364_136_223_846_793_005)
                .wrapping_add(1_442_695_040_888_963_407);
            word = word << 32 ^ self.0 >> 32;
        }
        word % (most + 1)
    }

    /// A dimension of so many values, whose high is met or is not.
    fn of_size(&mut self, size: u64) -> Distribution {
        if size <= 65_535 && self.to(2) == 0 {
            return choice(size);
        }
        let span = 2 * MOST as u64;
        let most = span / size.max(2);
        let step = 1 + (self.to(most - 1) >> self.to(53)).min(MOST as u64 - 1);
        let with_step = self.to(2) > 0;
        let extent = (size - 1) * if with_step { step } else { 1 };
        let missed = self.to(step - 1).min(span - extent) * u64::from(with_step) * self.to(1);
        let from = (span - extent - missed) / [1, 2, 2, 1 << 60][self.to(3) as usize];
        let low = from as i64 - MOST;
        let high = low + (extent + missed) as i64;
        Distribution::Int(IntDistribution {
            low,
            high,
            log_scale: false,
            step: with_step.then_some(step as i64),
        })
    }
}

#[test]
fn random_spaces() {
    let mut drawn = Drawn(7);
    let (mut listed, mut of) = (0, [0; 17]);
    for _ in 0..2000 {
        let n = 1 + drawn.to(15) as usize;
        // Mostly a few combinations, and some near 65,536.
        let few = drawn.to(16).min(drawn.to(16));
        let mut left = 1 + (drawn.to(66_000) >> (16 - few));
        let mut dims = Vec::new();
        for _ in 0..n {
            let size = 1 + drawn.to(left - 1);
            left /= size;
            dims.insert(drawn.to(dims.len() as u64) as usize, drawn.of_size(size));
        }
        let Ok(all) = taken(&dims) else {
            assert_eq!(taken_into(&dims, 16 * MAX_COMBINATIONS), Err(SweepRefusal::TooMany));
            continue;
        };
        let numbers = all.len() * n;
        assert_eq!(taken_into(&dims, numbers), Ok(all.len()));
        assert_eq!(taken_into(&dims, numbers + 1 + drawn.to(9) as usize), Ok(all.len()));
        assert_eq!(taken_into(&dims, numbers - 1), Err(SweepRefusal::TooMany));
        listed += 1;
        of[n] += 1;
    }
    assert!(listed > 1500 && of[1..].iter().all(|n| *n > 50));
}

#[test]
fn the_limit() {
    let two = vec![choice(2); 16];
    assert_eq!(taken(&two).map(|all| all.len()), Ok(65_536));
    assert_eq!(taken_into(&two, 1 << 20), Ok(65_536));
    assert_eq!(taken_into(&two, (1 << 20) - 1), Err(SweepRefusal::TooMany));
    let most = [
        vec![int(0, 65_535)],
        vec![choice(256), int(1, 256)],
        vec![choice(1), int(1, 65_536), int(3, 3)],
    ];
    for dims in most {
        assert_eq!(taken(&dims).map(|all| all.len()), Ok(65_536));
    }
    assert_eq!(taken(&[choice(65_535)]).map(|all| all.len()), Ok(65_535));
    // The last three have 2^32 + 1, 2^64 and 2^64 + 1 combinations, the product of two primes.
    let over = [
        vec![int(0, 65_536)],
        vec![int(3, 3), int(0, 65_536)],
        vec![stepped(-MOST, MOST, 1 << 38)],
        vec![choice(65_535), choice(2)],
        vec![int(-MOST, MOST); 16],
        vec![int(1, MOST); 16],
        vec![int(1, 1 << 32); 16],
        vec![int(1, 641), int(1, 6_700_417)],
        vec![int(1, 1 << 32), int(1, 1 << 32)],
        vec![int(1, 274_177), int(1, 67_280_421_310_721)],
    ];
    for dims in over {
        assert_eq!(taken(&dims), Err(SweepRefusal::TooMany));
        assert_eq!(taken_into(&dims, 1 << 20), Err(SweepRefusal::TooMany));
    }
}

// ---- What a combination is found by, and campaigns.

#[test]
fn what_is_not_in_it() {
    use ParamValue::{Categorical, Float, Int};
    let all = sweep(&[choice(3), stepped(1, 11, 4)]).unwrap();
    for settings in [
        &[Categorical(0), Int(11)][..],
        &[Categorical(0), Int(0)],
        &[Categorical(0), Int(i64::MIN)],
        &[Categorical(3), Int(1)],
        &[Categorical(u64::MAX), Int(1)],
        &[Int(0), Int(1)],
        &[Categorical(0), Categorical(1)],
        &[Float(0.0), Int(1)],
        &[Categorical(0), Float(f64::NAN)],
        &[Categorical(0)],
        &[Categorical(0), Int(1), Int(1)],
        &[],
    ] {
        assert_eq!(all.position(settings), None);
    }
    assert_eq!(all.position(&[Categorical(2), Int(9)]), Some(8));
}

#[test]
#[should_panic(expected = "a sweep has no combination past its last")]
fn no_place_past_the_last() {
    let all = sweep(&[choice(3), choice(2)]).unwrap();
    let _ = &all[1 << 63];
}

/// Each trial's settings are in the sweep, but for a high that no step meets: there the next lower value is. Discovery
/// and calls past the last dimension never give that high.
#[test]
fn campaigns() {
    let dims = [choice(3), stepped(20, 195, 20), int(1, 16), stepped(-9, 9, 5)];
    let all = sweep(&dims).unwrap();
    assert_eq!(all.len(), 3 * 9 * 16 * 4);
    let (mut found, mut missed) = (0, 0);
    for seed in 0..20 {
        let mut sampler = Sampler::builder().population_size(8).seed(seed).build().unwrap();
        let mut history = Vec::new();
        for trial in 0..200 {
            let mut ask = || dims.map(|d| sampler.sample(&d, trial, &history).unwrap().setting);
            let mut settings = ask();
            // Past the last dimension; the first trial would have dimensions more.
            let drawn = if trial == 0 { settings } else { ask() };
            assert!(all.position(&drawn).is_some());
            // Best at 195 and 9, so that candidates come there.
            let away = (195 - number(&settings[1])).pow(2) + (number(&settings[3]) - 9).pow(2);
            history.push(CompletedTrial::new(trial, away as f64));
            let high = (settings[1] == ParamValue::Int(195), settings[3] == ParamValue::Int(9));
            assert_eq!(all.position(&settings).is_none(), high.0 || high.1);
            missed += usize::from(high.0 || high.1);
            settings[1] = if high.0 { ParamValue::Int(180) } else { settings[1] };
            settings[3] = if high.1 { ParamValue::Int(6) } else { settings[3] };
            found += usize::from(all.position(&settings).is_some_and(|place| all[place] == settings));
        }
    }
    assert_eq!(found, 20 * 200);
    assert!(missed > 1000, "{missed}");
}
