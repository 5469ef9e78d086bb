//! Where an answer came from, for counting.

use crate::counts::Counts;
use crate::distribution::Distribution;
use crate::ladder::{self, Ends, Fault, RIGHT, Reading};
use crate::param::ParamValue;
use crate::sampler::de::Probe;

pub fn is_choice(d: &Distribution) -> bool {
    matches!(d, Distribution::Categorical(_))
}

/// An answer of `sample_random`, which is the call's only draw: from this word on.
pub fn count_random(d: &Distribution, answer: &ParamValue, word: u64, counts: &mut Counts) {
    if let Some(ends) = ladder::ends(d) {
        counts.random_ladder += 1;
        let drawn = |reading: Reading| reading.drawn(&mut fastrand::Rng::with_seed(word), ends);
        counts.ladder_left_out += u64::from(drawn(Reading(Some(Fault::UpperLeftOut))) != drawn(RIGHT));
        return;
    }
    match (d, answer) {
        (Distribution::Float(d), ParamValue::Float(x)) if d.step.is_some() => {
            counts.random_float_step += 1;
            counts.random_past_high += u64::from(*x > d.high);
        }
        (Distribution::Float(d), ParamValue::Float(x)) => {
            counts.random_float += 1;
            counts.random_at_high += u64::from(d.low < d.high && *x == d.high);
        }
        (Distribution::Int(d), _) if d.step.is_some() => counts.random_int_step += 1,
        (Distribution::Int(_), _) => counts.random_int += 1,
        (_, _) => counts.random_choice += 1,
    }
}

/// Where the answer of a call after discovery came from.
pub fn count_served(p: &Probe<'_>, d: &Distribution, trial: u64, answer: &ParamValue, word: u64, counts: &mut Counts) {
    let (place, next) = p.progress(trial).expect("the trial is open");
    let dim = next - 1;
    if dim >= p.dims() {
        counts.past += 1;
        counts.past_differs += u64::from((0..p.dims()).all(|i| p.distribution(i) != d));
        counts.past_ladder += u64::from(ladder::is_ladder(d));
        count_random(d, answer, word, counts);
        return;
    }
    let stored = p.distribution(dim);
    counts.lent_differs += u64::from(stored != d);
    let kinds = std::mem::discriminant(stored) != std::mem::discriminant(d);
    counts.lent_kind_differs += u64::from(kinds);
    counts.lent_no_ladder += u64::from(ladder::is_ladder(stored) && !ladder::is_ladder(d));
    counts.lent_ladder += u64::from(ladder::is_ladder(d) && !ladder::is_ladder(stored));
    if is_choice(stored) {
        counts.decoded_choice += 1;
        return;
    }
    let entry = p.candidate(place).entries[p.entry_of(dim)];
    let Some(ends) = ladder::ends(stored) else {
        return count_decoded(stored, entry, answer, counts);
    };
    // So clamping it first changes nothing. No file brings another: none has a ladder.
    let (lower, upper) = p.bounds()[p.entry_of(dim)];
    assert!(lower <= entry && entry <= upper, "an entry within the inner bounds");
    count_ladder(ends, entry, counts);
}

/// A ladder's answer, and whether another reading of document 02 would have changed it.
fn count_ladder(ends: Ends, entry: f64, counts: &mut Counts) {
    let otherwise = |fault| Reading(Some(fault)).decoded(entry, ends) != RIGHT.decoded(entry, ends);
    let (lower, upper) = RIGHT.inner_bounds(ends);
    counts.decoded_ladder += 1;
    counts.ladder_at_lower += u64::from(entry == lower as f64);
    counts.ladder_at_upper += u64::from(entry == upper as f64);
    counts.ladder_lower_up += u64::from(otherwise(Fault::LowerUp));
    counts.ladder_upper_down += u64::from(otherwise(Fault::UpperDown));
    counts.ladder_halves += u64::from(entry.fract() == 0.5);
    let to_even = RIGHT.decoded(entry.round_ties_even(), ends);
    counts.ladder_even += u64::from(to_even != RIGHT.decoded(entry, ends));
    counts.ladder_cut_off += u64::from(otherwise(Fault::CutOff));
    counts.ladder_nearest += u64::from(otherwise(Fault::Nearest));
    counts.ladder_unclamped += u64::from(otherwise(Fault::Unclamped));
}

/// An answer decoded from an entry, and whether another way of rounding would have changed it.
fn count_decoded(stored: &Distribution, entry: f64, answer: &ParamValue, counts: &mut Counts) {
    let (low, high, step) = match stored {
        Distribution::Float(s) => (s.low, s.high, s.step),
        Distribution::Int(s) => (s.low as f64, s.high as f64, s.step.map(|k| k as f64)),
        Distribution::Categorical(_) => return,
    };
    let int = matches!(stored, Distribution::Int(_));
    let (decoded, by_floor, to_even) = match (int, step) {
        (false, None) => {
            counts.decoded_float += 1;
            return;
        }
        (false, Some(_)) => (
            &mut counts.decoded_float_step,
            &mut counts.floor_float,
            &mut counts.even_float,
        ),
        (true, None) => (&mut counts.decoded_int, &mut counts.floor_int, &mut counts.even_int),
        (true, Some(_)) => (
            &mut counts.decoded_int_step,
            &mut counts.floor_int_step,
            &mut counts.even_int_step,
        ),
    };
    *decoded += 1;
    let (from, by) = step.map_or((0.0, 1.0), |step| (low, step));
    let k = (entry - from) / by;
    let given = match answer {
        ParamValue::Float(x) => *x,
        ParamValue::Int(x) => *x as f64,
        ParamValue::Categorical(_) => return,
    };
    // Exact for whole numbers too: up to 2^53 all are doubles.
    let otherwise = |k: f64| (from + k * by).clamp(low, high) != given;
    *by_floor += u64::from(otherwise((k + 0.5).floor()));
    *to_even += u64::from(otherwise(k.round_ties_even()));
    counts.halves += u64::from(k.fract().abs() == 0.5);
    let passes = step.is_some() && from + k.round() * by > high;
    counts.clamped_float += u64::from(!int && passes);
    counts.clamped_int += u64::from(int && passes);
}
