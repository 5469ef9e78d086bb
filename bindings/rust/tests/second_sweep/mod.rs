//! A second reading of sweeps, which the library's are held against, from the words of document 02 (W10): combinations
//! nested dimension within dimension.

use std::iter;

use emkhurtov::{Distribution, ParamValue, Refusal, Sweep, SweepRefusal, sweep, sweep_into};

pub const MOST: i64 = 1 << 53;
pub const LADDER_MOST: i64 = 2_147_483_648;

// ---- The second reading.

/// "Choices rise from 0 and Int values from low by the step, or by 1 without one, and never pass high."
fn values(d: &Distribution) -> Box<dyn Iterator<Item = ParamValue>> {
    match *d {
        Distribution::Categorical(c) => Box::new((0..c.n_choices).map(ParamValue::Categorical)),
        Distribution::Int(i) => {
            let next = move |value: &i64| Some(value + i.step.unwrap_or(1));
            let rising = iter::successors(Some(i.low), next);
            Box::new(rising.take_while(move |value| *value <= i.high).map(ParamValue::Int))
        }
        Distribution::Float(_) => panic!("a Float has no values to list"),
    }
}

/// Every combination that begins so, "the last dimension changing fastest"; one more than 65,536 is enough.
fn nest(dims: &[Distribution], made: &mut Vec<ParamValue>, list: &mut Vec<Vec<ParamValue>>) {
    let Some((first, others)) = dims.split_first() else {
        list.push(made.clone());
        return;
    };
    for value in values(first) {
        if list.len() > 65_536 {
            return;
        }
        made.push(value);
        nest(others, made, list);
        made.pop();
    }
}

/// Document 01's refusals 4 to 7, with document 02's 5 (W9).
fn verdict(d: &Distribution) -> Option<Refusal> {
    let first = |rows: [(bool, Refusal); 4]| rows.into_iter().find(|row| row.0).map(|row| row.1);
    match *d {
        Distribution::Float(f) => first([
            (
                !(f.low.abs() <= 1e300 && f.high.abs() <= 1e300 && f.low <= f.high),
                Refusal::Bounds,
            ),
            (f.log_scale, Refusal::LogScale),
            (
                f.step
                    .is_some_and(|s| !(s.is_finite() && s > 0.0 && (f.high - f.low) / s <= 4_294_967_295.0)),
                Refusal::Step,
            ),
            (false, Refusal::Choices),
        ]),
        Distribution::Int(i) => first([
            (i.low < -MOST || i.high > MOST || i.low > i.high, Refusal::Bounds),
            (
                i.log_scale && (i.step.is_some() || i.low < 1 || i.high > LADDER_MOST),
                Refusal::LogScale,
            ),
            (i.step.is_some_and(|s| s <= 0 || s > MOST), Refusal::Step),
            (false, Refusal::Choices),
        ]),
        Distribution::Categorical(c) => (c.n_choices == 0 || c.n_choices > 65_535).then_some(Refusal::Choices),
    }
}

/// "Checks, after 4 to 7 on each dimension in turn: 16, no dimension, more than 16, or a Float or ladder dimension, comes
/// before 17, more combinations than 65,536 or than the lent memory holds."
fn second(dims: &[Distribution], room: usize) -> Result<Vec<Vec<ParamValue>>, SweepRefusal> {
    for (dimension, d) in dims.iter().enumerate() {
        if let Some(refusal) = verdict(d) {
            return Err(SweepRefusal::Dimension { dimension, refusal });
        }
    }
    let sweepable = |d: &Distribution| match d {
        Distribution::Float(_) => false,
        Distribution::Int(i) => !i.log_scale,
        Distribution::Categorical(_) => true,
    };
    if !(1..=16).contains(&dims.len()) || !dims.iter().all(sweepable) {
        return Err(SweepRefusal::Unsweepable);
    }
    let mut list = Vec::new();
    nest(dims, &mut Vec::new(), &mut list);
    if list.len() > 65_536 || list.len() > room / dims.len() {
        return Err(SweepRefusal::TooMany);
    }
    Ok(list)
}

// ---- Calls held against it.

pub fn number(setting: &ParamValue) -> i64 {
    match *setting {
        ParamValue::Int(v) => v,
        ParamValue::Categorical(v) => v as i64,
        ParamValue::Float(_) => panic!("a Float has no number"),
    }
}

/// Places before and behind the lent memory.
const GUARD: usize = 16;

/// In lent memory of this room: the answer, the numbers, and nothing past them or around it; on a refusal nothing at all.
pub fn taken_into(dims: &[Distribution], room: usize) -> Result<usize, SweepRefusal> {
    let mut memory: Vec<i64> = (0..(room + 2 * GUARD) as i64).map(|i| i64::MIN + i).collect();
    let mut expected = memory.clone();
    let answer = sweep_into(dims, &mut memory[GUARD..][..room]);
    let list = second(dims, room);
    assert_eq!(
        answer,
        list.as_ref().map(Vec::len).map_err(|refusal| *refusal),
        "{dims:?}"
    );
    for (place, setting) in list.iter().flatten().flatten().enumerate() {
        expected[GUARD + place] = number(setting);
    }
    assert!(memory == expected, "{dims:?}");
    answer
}

/// As settings: each way to get at a combination gives it.
pub fn taken(dims: &[Distribution]) -> Result<Sweep, SweepRefusal> {
    let answer = sweep(dims);
    let expected = second(dims, usize::MAX);
    let all = match &answer {
        Ok(all) => all,
        Err(refusal) => {
            assert_eq!(expected, Err(*refusal), "{dims:?}");
            return answer;
        }
    };
    let list = expected.unwrap();
    assert_eq!((all.len(), all.is_empty()), (list.len(), false));
    assert_eq!(all.iter().len(), list.len());
    for (place, (settings, one)) in list.iter().zip(all).enumerate() {
        assert!(one == settings && all[place] == **settings && all.get(place) == Some(settings));
        assert_eq!(all.position(settings), Some(place));
    }
    assert_eq!(all.get(list.len()), None);
    assert_eq!(all.get(usize::MAX), None);
    answer
}

pub fn int(low: i64, high: i64) -> Distribution {
    Distribution::int(low, high)
}

pub fn stepped(low: i64, high: i64, step: i64) -> Distribution {
    Distribution::int_step(low, high, step)
}

pub fn choice(choices: u64) -> Distribution {
    Distribution::categorical(choices)
}
