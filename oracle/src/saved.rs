//! Saved files: a second writer, and a second reader of their chain. Written from docs/SAVED.md alone.

use crate::campaign::Campaign;
use crate::distribution::Distribution;
use crate::sampler::de::{DEStrategy, Probe, Vector};

/// A record's bytes.
pub const RECORD: usize = 32;

/// A record without its next: what it says, wherever it stands.
#[derive(Clone, Copy, Debug, PartialEq, Eq, PartialOrd, Ord)]
pub struct Record {
    pub kind: u16,
    pub position: u32,
    pub words: [u64; 3],
}

/// The records of a sampler with no ladder, in the writer's order: by kind, then by position.
pub fn records(c: &Campaign) -> Vec<Record> {
    let p = c.sampler.probe();
    p.assert_hidden_part();
    assert_eq!(
        p.values().is_empty(),
        c.closed == 0,
        "parents are there from the first closing on"
    );
    let lists = [
        set_up(&p, c.seed),
        counts(&p, c),
        dimensions(&p),
        trials(&p),
        parents(&p),
        candidates(&p),
    ];
    let mut all = Vec::new();
    for (kind, list) in (1..).zip(&lists) {
        for (position, three) in (0..).zip(list.chunks(3)) {
            let mut words = [0; 3];
            words[..three.len()].copy_from_slice(three);
            all.push(Record { kind, position, words });
        }
    }
    all
}

fn set_up(p: &Probe<'_>, seed: u64) -> Vec<u64> {
    let (f, cr, strategy, size) = p.set_up();
    let strategy = match strategy {
        DEStrategy::Rand1 => 0,
        DEStrategy::Best1 => 1,
        DEStrategy::CurrentToBest1 => 2,
    };
    let set = u64::from(size.is_some());
    vec![f.to_bits(), cr.to_bits(), strategy, set, size.unwrap_or(0) as u64, seed]
}

fn counts(p: &Probe<'_>, c: &Campaign) -> Vec<u64> {
    vec![
        u64::from(p.first().is_some()),
        p.first().unwrap_or(0),
        u64::from(p.active()),
        p.size() as u64,
        p.dims() as u64,
        p.trials().len() as u64,
        u64::from(c.closed),
        u64::from(c.idle),
        p.best() as u64,
        p.word(),
    ]
}

/// A signed whole number: 2^63 added.
fn signed(number: i64) -> u64 {
    (number as u64).wrapping_add(1 << 63)
}

fn dimensions(p: &Probe<'_>) -> Vec<u64> {
    let five = |dim| match p.distribution(dim) {
        Distribution::Float(d) => [
            1,
            d.low.to_bits(),
            d.high.to_bits(),
            u64::from(d.step.is_some()),
            d.step.map_or(0, f64::to_bits),
        ],
        Distribution::Int(d) => [
            2,
            signed(d.low),
            signed(d.high),
            u64::from(d.step.is_some()),
            d.step.map_or(0, signed),
        ],
        Distribution::Categorical(d) => [3, d.n_choices as u64, 0, 0, 0],
    };
    (0..p.dims()).flat_map(five).collect()
}

fn trials(p: &Probe<'_>) -> Vec<u64> {
    // The Rust counts a next place on past D; the page stops there.
    let two = |&trial: &u64| {
        [
            trial,
            p.progress(trial).map_or(0, |(_, next)| next.min(p.dims())) as u64,
        ]
    };
    p.trials().iter().flat_map(two).collect()
}

/// One word a dimension, in the order of the dimensions.
fn row(p: &Probe<'_>, v: &Vector<'_>) -> Vec<u64> {
    let mut choices = v.choices();
    let word = |dim| match p.distribution(dim) {
        Distribution::Categorical(_) => choices.next().map_or(0, |(_, choice)| choice as u64),
        _ => v.entries[p.entry_of(dim)].to_bits(),
    };
    (0..p.dims()).map(word).collect()
}

fn parents(p: &Probe<'_>) -> Vec<u64> {
    let mut words = Vec::new();
    for (slot, value) in p.values().iter().enumerate() {
        words.extend(row(p, &p.parent(slot)));
        words.push(value.to_bits());
    }
    words
}

fn candidates(p: &Probe<'_>) -> Vec<u64> {
    (0..p.candidates())
        .flat_map(|place| row(p, &p.candidate(place)))
        .collect()
}

/// The file that the writer lays: each record's next is the one after it.
pub fn file(records: &[Record]) -> Vec<u8> {
    let mut bytes = Vec::with_capacity(RECORD * records.len());
    for (k, record) in records.iter().enumerate() {
        let next = if k + 1 < records.len() { k + 1 } else { 0 };
        bytes.extend_from_slice(&(next as u16).to_le_bytes());
        bytes.extend_from_slice(&record.kind.to_le_bytes());
        bytes.extend_from_slice(&record.position.to_le_bytes());
        for word in record.words {
            bytes.extend_from_slice(&word.to_le_bytes());
        }
    }
    bytes
}

/// The records on a file's chain, in its order; nothing where check 12 applies.
pub fn chain(file: &[u8]) -> Option<Vec<Record>> {
    if file.is_empty() || !file.len().is_multiple_of(RECORD) {
        return None;
    }
    let count = file.len() / RECORD;
    let mut met = vec![false; count];
    let mut at = 0;
    let mut on_chain = Vec::new();
    loop {
        if at >= count || met[at] {
            return None;
        }
        met[at] = true;
        let bytes = &file[RECORD * at..][..RECORD];
        on_chain.push(Record {
            kind: number(&bytes[2..4]) as u16,
            position: number(&bytes[4..8]) as u32,
            words: [8, 16, 24].map(|from| number(&bytes[from..from + 8])),
        });
        at = number(&bytes[..2]) as usize;
        if at == 0 {
            return Some(on_chain);
        }
    }
}

/// Low byte first.
fn number(bytes: &[u8]) -> u64 {
    bytes.iter().rev().fold(0, |sum, &b| sum << 8 | u64::from(b))
}
