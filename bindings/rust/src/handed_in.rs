//! Tests alone: states that no call of this crate leaves, written into a sampler's memory. An entry may be up to 4e300 in
//! size, in a candidate and in a parent.

use crate::{BoundsRule, CompletedTrial, Distribution, FileRefusal, MAX_FILE, ParamValue, Refusal, Sampler};

const SLOTS: usize = 4;
/// As many trials are open: two of them are extras.
const OPEN: usize = SLOTS + 2;
const FIT: [f64; 6] = [4e300, -4e300, 3.9999999999999996e300, -1.1e300, -0.0, 5e-324];
const UNFIT: [f64; 12] = [
    4.000000000000001e300,
    -4.000000000000001e300,
    5e300,
    -1e301,
    1e308,
    -1e308,
    f64::MAX,
    f64::MIN,
    f64::INFINITY,
    f64::NEG_INFINITY,
    f64::NAN,
    -f64::NAN,
];

/// Two dimensions with entries and a choice.
fn dimensions() -> [Distribution; 3] {
    [
        Distribution::float(-8.0, 256.0),
        Distribution::categorical(4),
        Distribution::int_step(1, 64, 3),
    ]
}

fn is_within(settings: &[ParamValue]) -> bool {
    let [
        ParamValue::Float(x),
        ParamValue::Categorical(choice),
        ParamValue::Int(k),
    ] = *settings
    else {
        return false;
    };
    (-8.0..=256.0).contains(&x) && choice < 4 && (1..=64).contains(&k)
}

/// A sampler with parents, whose open trials ask anew, and the history, which has none of them.
fn under_way(rule: BoundsRule) -> (Sampler, Vec<CompletedTrial>) {
    let builder = Sampler::builder().population_size(SLOTS as u64).seed(3);
    let mut s = builder.bounds_rule(rule).build().unwrap();
    let history: Vec<_> = (0..5).map(result).collect();
    for trial in 0..5 + OPEN as u64 {
        for dimension in dimensions() {
            let told = if trial < 5 { 0 } else { history.len() };
            s.sample(&dimension, trial, &history[..told]).unwrap();
        }
    }
    assert_eq!((s.state.closed, s.state.n_trials), (1, OPEN as u64));
    for trial in &mut s.state.trials[..OPEN] {
        trial.next_dim = 0;
    }
    (s, history)
}

fn result(trial: u64) -> CompletedTrial {
    CompletedTrial::new(trial, (trial * 7919 % 1009) as f64)
}

/// The two entries of each candidate and of each parent, counted in this order.
const PLACES: usize = 2 * (OPEN + SLOTS);

fn with_entry(s: &Sampler, place: usize, value: f64) -> Sampler {
    let mut changed = s.clone();
    let (row, j) = (place / 2, place % 2);
    match row.checked_sub(OPEN) {
        None => changed.state.candidates[row].x[j] = value,
        Some(slot) => changed.state.parents[slot].candidate.x[j] = value,
    }
    changed
}

/// Every value in every entry in turn.
fn each_entry(values: &[f64], judge: impl Fn(Sampler, &[CompletedTrial])) {
    for rule in [BoundsRule::Clamp, BoundsRule::Midpoint] {
        let (s, history) = under_way(rule);
        for place in 0..PLACES {
            for value in values {
                judge(with_entry(&s, place, *value), &history);
            }
        }
    }
}

#[test]
fn entries_up_to_4e300_are_sound() {
    assert_eq!(4e300_f64.to_bits() + 1, UNFIT[0].to_bits());
    each_entry(&FIT, |mut s, history| {
        assert!(is_within(&s.look().unwrap().unwrap().settings));
        for slot in 0..SLOTS {
            assert!(is_within(&s.slot_settings(slot).unwrap().unwrap()));
        }
        if s.state.setup.bounds_rule == 0 {
            let restored = Sampler::restore(&s.save().unwrap()).unwrap();
            assert!(restored.state_bytes() == s.state_bytes());
        }
        // The open trials, and those of three generations more.
        let mut history = history.to_vec();
        for trial in 5..5 + (OPEN + 9) as u64 {
            let settings = dimensions().map(|d| s.sample(&d, trial, &history).unwrap().setting);
            assert!(is_within(&settings));
            history.push(result(trial));
        }
        assert_eq!(s.look().unwrap().unwrap().closed, 4);
    });
}

#[test]
fn entries_over_4e300_are_not() {
    each_entry(&UNFIT, |mut s, history| {
        let before = s.state_bytes().to_vec();
        // Whatever else is wrong with the call.
        let nan = [history, &[CompletedTrial::new(77, f64::NAN)]].concat();
        for lent in [history, &nan[..]] {
            for distribution in [Distribution::float(-8.0, 256.0), Distribution::int(3, 2)] {
                let lent_before = format!("{lent:?}");
                assert_eq!(s.sample(&distribution, 5, lent), Err(Refusal::StateNotSound));
                assert_eq!(s.sample(&distribution, 50, lent), Err(Refusal::StateNotSound));
                assert_eq!(format!("{lent:?}"), lent_before);
            }
        }
        assert_eq!(s.look(), Err(Refusal::StateNotSound));
        assert_eq!(s.slot_settings(0), Err(Refusal::StateNotSound));
        assert_eq!(s.save(), Err(FileRefusal::BadContent));
        let mut room = [0xa5; MAX_FILE];
        assert_eq!(s.save_to(&mut room), Err(FileRefusal::BadContent));
        assert!(room.iter().all(|byte| *byte == 0xa5));
        assert!(s.state_bytes() == before);
    });
}
