//! Check 13 of saved files: what the records on a chain stand for, where they stand for a sound state. Written from
//! docs/SAVED.md alone; what it says of a dimension is refusals 4 to 7 of document 01.

use std::collections::HashSet;

use crate::distribution::{CategoricalDistribution, Distribution, FloatDistribution, IntDistribution};
use crate::entries::{self, Whose};
use crate::judge;
use crate::midpoint::BoundsRule;
use crate::sampler::de::DEStrategy;
use crate::saved::Record;
use crate::script::SetUp;

/// A state in plain words.
pub struct Plain {
    pub setup: SetUp,
    pub first: Option<u64>,
    /// N, where discovery has ended.
    pub size: Option<usize>,
    pub closed: u32,
    pub idle: u32,
    pub best: usize,
    pub word: u64,
    pub dims: Vec<Distribution>,
    /// The open trials, each with its next place.
    pub trials: Vec<(u64, usize)>,
    pub parents: Vec<Row>,
    pub values: Vec<f64>,
    pub candidates: Vec<Row>,
}

/// A parent's or a candidate's entries, and its choices, each with its dimension.
pub struct Row {
    pub entries: Vec<f64>,
    pub choices: Vec<(usize, usize)>,
}

/// The state that the records of a chain stand for; nothing where check 13 applies.
pub fn state(records: &[Record], limits: entries::Reading) -> Option<Plain> {
    let lists = Lists::of(records)?;
    let [f, cr, strategy, size_set, size, seed] = lists.words(1, 6)?[..] else {
        return None;
    };
    let setup = SetUp {
        f: f64::from_bits(f),
        cr: f64::from_bits(cr),
        strategy: match strategy {
            0 => DEStrategy::Rand1,
            1 => DEStrategy::Best1,
            2 => DEStrategy::CurrentToBest1,
            _ => return None,
        },
        size: optional(size_set, size)?,
        seed,
        // A file has no place for another.
        rule: BoundsRule::Clamp,
    };
    let [called, first, ended, n, d, t, closed, idle, best, word] = lists.words(2, 10)?[..] else {
        return None;
    };
    let first = optional(called, first)?;
    let ended = flag(ended)?;
    let closed = u32::try_from(closed).ok()?;
    let idle = u32::try_from(idle).ok()?;
    if judge::set_up(&setup).is_some() || d > judge::MOST_DIMS as u64 || idle > closed {
        return None;
    }
    let dims = dimensions(lists.words(3, 5 * d as usize)?)?;
    // N and T are small before they are multiplied.
    let (size, called_rightly) = if ended {
        (size_rule(setup.size, &dims), first.is_some() && d > 0)
    } else {
        (0, first.is_some() == (d > 0))
    };
    let most = if ended { size + judge::MOST_EXTRAS } else { 0 };
    if !called_rightly || n != size as u64 || t > most as u64 || (!ended && closed > 0) {
        return None;
    }
    let trials = trials(lists.words(4, 2 * t as usize)?, d)?;
    let in_all = if closed > 0 { size * (d as usize + 1) } else { 0 };
    let (parents, values) = parents(lists.words(5, in_all)?, &dims, limits)?;
    let in_all = if ended { size.max(t as usize) * d as usize } else { 0 };
    let candidates = candidates(lists.words(6, in_all)?, &dims, limits)?;
    if best != best_slot(&values) {
        return None;
    }
    Some(Plain {
        setup,
        first,
        size: ended.then_some(size),
        closed,
        idle,
        best: best as usize,
        word,
        dims,
        trials,
        parents,
        values,
        candidates,
    })
}

/// Each kind's words, the positions in order.
struct Lists([Vec<u64>; 6]);

impl Lists {
    /// Nothing where a kind is unknown, or a position is missing or stands twice.
    fn of(records: &[Record]) -> Option<Self> {
        let mut sorted = records.to_vec();
        sorted.sort();
        let mut lists: [Vec<u64>; 6] = Default::default();
        for record in sorted {
            let list = lists.get_mut(usize::from(record.kind).checked_sub(1)?)?;
            if list.len() != 3 * record.position as usize {
                return None;
            }
            list.extend_from_slice(&record.words);
        }
        Some(Self(lists))
    }

    /// A kind's words, so many; nothing where there are records fewer or more, or a word past the end is not 0.
    fn words(&self, kind: usize, count: usize) -> Option<&[u64]> {
        let list = &self.0[kind - 1];
        let whole = list.len() == 3 * count.div_ceil(3) && list[count..].iter().all(|&word| word == 0);
        whole.then(|| &list[..count])
    }
}

fn flag(word: u64) -> Option<bool> {
    (word < 2).then_some(word == 1)
}

/// A word behind its flag: 0 where there is none.
fn optional(set: u64, word: u64) -> Option<Option<u64>> {
    match flag(set)? {
        true => Some(Some(word)),
        false => (word == 0).then_some(None),
    }
}

fn signed(word: u64) -> i64 {
    word.wrapping_sub(1 << 63) as i64
}

fn dimensions(words: &[u64]) -> Option<Vec<Distribution>> {
    words.chunks(5).map(dimension).collect()
}

fn dimension(words: &[u64]) -> Option<Distribution> {
    let &[kind, low, high, set, step] = words else {
        return None;
    };
    let d = match kind {
        1 => Distribution::Float(FloatDistribution {
            low: f64::from_bits(low),
            high: f64::from_bits(high),
            log_scale: false,
            step: optional(set, step)?.map(f64::from_bits),
        }),
        2 => Distribution::Int(IntDistribution {
            low: signed(low),
            high: signed(high),
            log_scale: false,
            step: optional(set, step)?.map(signed),
        }),
        3 if [high, set, step] == [0; 3] => Distribution::Categorical(CategoricalDistribution {
            n_choices: low as usize,
        }),
        _ => return None,
    };
    judge::distribution(&d).is_none().then_some(d)
}

/// The size that is set, raised to 4; unset the larger of 15 and 10 times the continuous dimensions.
fn size_rule(set: Option<u64>, dims: &[Distribution]) -> usize {
    let continuous = dims.iter().filter(|d| !matches!(d, Distribution::Categorical(_)));
    match set {
        Some(size) => (size as usize).max(4),
        None => (10 * continuous.count()).max(15),
    }
}

fn trials(words: &[u64], d: u64) -> Option<Vec<(u64, usize)>> {
    let mut met = HashSet::new();
    let one = |two: &[u64]| (met.insert(two[0]) && two[1] <= d).then_some((two[0], two[1] as usize));
    words.chunks(2).map(one).collect()
}

fn candidates(words: &[u64], dims: &[Distribution], limits: entries::Reading) -> Option<Vec<Row>> {
    let fits = |entry: f64| limits.fits(entry, Whose::Candidate);
    // Without dimensions there are no words, and no piece is empty.
    let pieces = words.chunks(dims.len().max(1));
    pieces.map(|words| row(words, dims, fits)).collect()
}

fn row(words: &[u64], dims: &[Distribution], fits: impl Fn(f64) -> bool) -> Option<Row> {
    let (mut entries, mut choices) = (Vec::new(), Vec::new());
    for (dim, (&word, d)) in words.iter().zip(dims).enumerate() {
        match d {
            Distribution::Categorical(d) if word < d.n_choices as u64 => choices.push((dim, word as usize)),
            Distribution::Categorical(_) => return None,
            _ if fits(f64::from_bits(word)) => entries.push(f64::from_bits(word)),
            _ => return None,
        }
    }
    Some(Row { entries, choices })
}

fn parents(words: &[u64], dims: &[Distribution], limits: entries::Reading) -> Option<(Vec<Row>, Vec<f64>)> {
    let fits = |entry: f64| limits.fits(entry, Whose::Parent);
    let (mut parents, mut values) = (Vec::new(), Vec::new());
    for words in words.chunks(dims.len() + 1) {
        let value = f64::from_bits(words[dims.len()]);
        if value.is_nan() {
            return None;
        }
        parents.push(row(&words[..dims.len()], dims, fits)?);
        values.push(value);
    }
    Some((parents, values))
}

/// The first slot whose value is numerically least; 0 where there are no parents.
fn best_slot(values: &[f64]) -> u64 {
    let least = |&slot: &usize| values.iter().all(|&value| values[slot] <= value);
    (0..values.len()).find(least).unwrap_or(0) as u64
}
