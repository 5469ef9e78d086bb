//! One section of a script: a `new` line and what follows it, with a ledger of its own that steers the generator.
//! The ledger judges nothing: what the calls should answer is the oracle's business.

use std::collections::{HashMap, HashSet};

use super::mark::Mark;
use crate::distribution::Distribution;
use crate::history::{Entry, State};
use crate::judge;
use crate::ladder;
use crate::midpoint::BoundsRule;
use crate::script::SetUp;
use crate::text;

/// The text so far, and where the campaign stands.
pub struct Section {
    pub text: Vec<u8>,
    /// Sample lines, the refused ones too.
    pub calls: u64,
    /// Those of them that the ledger sees accepted.
    pub accepted: u64,
    /// Closings that the ledger expects, those with them that a restart undid.
    pub closed: u64,
    /// Closed generations of the state as it stands.
    pub generations: u64,
    pub dims: Vec<Distribution>,
    pub first: Option<u64>,
    /// N once discovery has ended.
    pub n: Option<usize>,
    /// The open trials in order.
    pub open: Vec<u64>,
    /// Trials of closed generations.
    pub old: Vec<u64>,
    /// The entries of the history, and the trials that it has.
    pub entries: usize,
    pub told: HashSet<u64>,
    calls_of: HashMap<u64, usize>,
    size: Option<u64>,
    rule: BoundsRule,
    /// NaN values of complete entries.
    nans: usize,
    /// There is a state.
    pub alive: bool,
    /// What a `restore` gives back.
    pub kept: Option<Mark>,
}

impl Section {
    pub fn new(setup: &SetUp) -> Self {
        let mut s = Self {
            text: Vec::new(),
            calls: 0,
            accepted: 0,
            closed: 0,
            generations: 0,
            dims: Vec::new(),
            first: None,
            n: None,
            open: Vec::new(),
            old: Vec::new(),
            entries: 0,
            told: HashSet::new(),
            calls_of: HashMap::new(),
            size: setup.size,
            rule: setup.rule,
            nans: 0,
            alive: judge::set_up(setup).is_none(),
            kept: None,
        };
        s.set_up_line(setup);
        s
    }

    /// A further `new` line: a fresh state or none, and an empty history. The kept file stays.
    pub fn set_up_anew(&mut self, setup: &SetUp) {
        self.set_up_line(setup);
        self.forget();
        self.stand_at(Mark::fresh(setup.size));
        self.rule = setup.rule;
        self.alive = judge::set_up(setup).is_none();
    }

    fn stand_at(&mut self, mark: Mark) {
        self.dims = mark.dims;
        self.first = mark.first;
        self.n = mark.n;
        self.open = mark.open;
        self.calls_of = mark.calls_of;
        self.generations = mark.generations;
        self.size = mark.size;
        self.rule = BoundsRule::Clamp;
        self.alive = true;
    }

    /// With midpoint it is refused, and with a ladder; the kept file stays then.
    pub fn save(&mut self) {
        self.text.extend_from_slice(b"save\n");
        if self.rule == BoundsRule::Midpoint || self.dims.iter().any(ladder::is_ladder) {
            return;
        }
        self.kept = Some(Mark {
            dims: self.dims.clone(),
            first: self.first,
            n: self.n,
            open: self.open.clone(),
            calls_of: self.calls_of.clone(),
            generations: self.generations,
            size: self.size,
        });
    }

    /// A `restore` line that is taken, and a `state` line. The history stays as it is.
    pub fn restore(&mut self) {
        let mark = self.kept.clone().expect("a file was saved");
        self.text.extend_from_slice(b"restore\n");
        self.stand_at(mark);
        self.state();
    }

    /// A `restore` line that is refused; a `state` line shows that nothing has changed.
    pub fn restore_refused(&mut self) {
        self.text.extend_from_slice(b"restore\n");
        if self.alive {
            self.state();
        }
    }

    /// A kept file of zero bytes, which nothing reads.
    pub fn file(&mut self, length: u64) {
        self.text.extend_from_slice(b"file ");
        text::whole(&mut self.text, length);
        self.text.push(b'\n');
        self.kept = None;
    }

    pub fn put(&mut self, offset: usize, bytes: &[u8]) {
        self.text.extend_from_slice(b"put ");
        text::whole(&mut self.text, offset as u64);
        self.text.push(b' ');
        text::hex(&mut self.text, bytes);
        self.text.push(b'\n');
    }

    pub fn bytes(&mut self) {
        self.text.extend_from_slice(b"bytes\n");
    }

    /// A `new` line alone.
    pub fn set_up_line(&mut self, setup: &SetUp) {
        text::set_up(&mut self.text, setup);
    }

    /// A sample line; says whether the ledger sees it close a generation. A `state` line follows a closing.
    pub fn sample(&mut self, trial: u64, d: &Distribution) -> bool {
        debug_assert!(self.alive);
        self.calls += 1;
        self.text.extend_from_slice(b"sample ");
        text::whole(&mut self.text, trial);
        self.text.push(b' ');
        text::distribution(&mut self.text, d);
        self.text.push(b'\n');
        if judge::distribution(d).is_some() || self.nans > 0 {
            return false;
        }
        if self.n.is_none() {
            if self.first.is_none_or(|first| first == trial) {
                if self.dims.len() < judge::MOST_DIMS {
                    self.accepted += 1;
                    self.first = Some(trial);
                    self.dims.push(d.clone());
                }
                return false;
            }
            self.n = Some(self.size_rule());
        }
        let closes = self.ready();
        if closes {
            self.closed += 1;
            self.generations += 1;
            self.old.append(&mut self.open);
            self.calls_of.clear();
            if self.old.len() > 400 {
                self.old.drain(..200);
            }
        }
        if !self.is_open(trial) && !self.full() {
            self.open.push(trial);
            self.calls_of.insert(trial, 0);
        }
        if let Some(calls) = self.calls_of.get_mut(&trial) {
            *calls += 1;
            self.accepted += 1;
        }
        if closes {
            self.state();
        }
        closes
    }

    fn size_rule(&self) -> usize {
        let n = self.continuous();
        self.size.map_or((10 * n).max(15), |size| (size as usize).max(4))
    }

    pub fn continuous(&self) -> usize {
        let choice = |d: &&Distribution| matches!(d, Distribution::Categorical(_));
        self.dims.iter().filter(|d| !choice(d)).count()
    }

    /// N trials are open and the history has the first N.
    pub fn ready(&self) -> bool {
        self.n
            .is_some_and(|n| self.open.len() >= n && self.missing().is_empty())
    }

    /// Of the first N open trials those that the history lacks.
    pub fn missing(&self) -> Vec<u64> {
        let n = self.n.unwrap_or(0);
        let lacks = |t: &&u64| !self.told.contains(t);
        self.open.iter().take(n).filter(lacks).copied().collect()
    }

    /// 64 extras are given.
    pub fn full(&self) -> bool {
        self.n.is_some_and(|n| self.open.len() >= n + judge::MOST_EXTRAS)
    }

    pub fn is_open(&self, trial: u64) -> bool {
        self.calls_of.contains_key(&trial)
    }

    /// The calls that a trial has made in the open generation.
    pub fn calls_of(&self, trial: u64) -> usize {
        self.calls_of.get(&trial).copied().unwrap_or(0)
    }

    pub fn tell(&mut self, trial: u64, value: f64) {
        let state = State::Complete;
        self.tell_entry(Entry { trial, value, state });
    }

    /// Every eighth complete entry is told with its word, which changes nothing.
    pub fn tell_entry(&mut self, Entry { trial, value, state }: Entry) {
        self.text.extend_from_slice(b"tell ");
        text::whole(&mut self.text, trial);
        self.text.push(b' ');
        text::double(&mut self.text, value);
        self.text.extend_from_slice(match state {
            State::Complete if self.entries % 8 != 7 => b"",
            State::Complete => b" complete",
            State::Pruned => b" pruned",
            State::Failed => b" failed",
        });
        self.text.push(b'\n');
        self.entries += 1;
        self.nans += usize::from(value.is_nan() && state == State::Complete);
        self.told.insert(trial);
    }

    pub fn clear(&mut self) {
        self.text.extend_from_slice(b"clear\n");
        self.forget();
    }

    fn forget(&mut self) {
        self.entries = 0;
        self.nans = 0;
        self.told.clear();
    }

    pub fn look(&mut self) {
        self.text.extend_from_slice(b"look\n");
    }

    pub fn state(&mut self) {
        self.text.extend_from_slice(b"state\n");
    }

    pub fn comment(&mut self, words: &str) {
        self.text.extend_from_slice(b"# ");
        self.text.extend_from_slice(words.as_bytes());
        self.text.push(b'\n');
    }
}
