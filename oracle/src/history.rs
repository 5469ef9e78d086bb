//! A script's history: its entries as they were told, and what the Rust is lent of them. The Rust's completed trial has a
//! state, but its sampler reads none, so the rule is this folder's own, from document 02's words: "a value counts as plus
//! infinity unless the state is complete". All else about a history is the Rust's.

use std::collections::HashMap;

use crate::counts::Counts;
use crate::faults::Chosen;
use crate::sampler::CompletedTrial;

/// The state of an entry.
#[derive(Clone, Copy, Debug, Default, PartialEq)]
pub enum State {
    #[default]
    Complete,
    Pruned,
    Failed,
}

/// An entry, as it was told.
#[derive(Clone, Copy, Debug)]
pub struct Entry {
    pub trial: u64,
    pub value: f64,
    pub state: State,
}

impl Entry {
    pub fn is_complete(&self) -> bool {
        self.state == State::Complete
    }

    /// What it counts as.
    pub fn counted(&self) -> f64 {
        if self.is_complete() { self.value } else { f64::INFINITY }
    }
}

/// A wrong reading of the rule, to show that a comparison can fail.
#[derive(Clone, Copy, Debug, PartialEq)]
pub enum Fault {
    /// A pruned value counts as it is.
    Pruned,
    /// A failed value counts as minus infinity.
    Failed,
    /// NaN of an incomplete entry is refused.
    Refused,
    /// NaN of a complete entry is not; it counts as plus infinity.
    Accepted,
    /// An incomplete entry is passed over where an earlier one of its number is complete.
    PassedOver,
}

pub const FAULTS: [(&str, Fault); 5] = [
    ("pruned", Fault::Pruned),
    ("failed", Fault::Failed),
    ("refused", Fault::Refused),
    ("accepted", Fault::Accepted),
    ("passed-over", Fault::PassedOver),
];

/// Every history made from now on reads the rule so.
pub static CHOSEN: Chosen<Fault> = Chosen::none();

/// The history of a script.
pub struct History {
    entries: Vec<Entry>,
    lent: Vec<CompletedTrial>,
    /// NaN values of complete entries, which are refused, and of incomplete ones, which are not.
    refused: usize,
    accepted: usize,
    fault: Option<Fault>,
}

impl Default for History {
    fn default() -> Self {
        Self::with(CHOSEN.get())
    }
}

impl History {
    pub(crate) fn with(fault: Option<Fault>) -> Self {
        Self {
            entries: Vec::new(),
            lent: Vec::new(),
            refused: 0,
            accepted: 0,
            fault,
        }
    }

    pub fn tell(&mut self, entry: Entry, counts: &mut Counts) {
        let nan = entry.value.is_nan();
        let refused = match self.fault {
            Some(Fault::Refused) => nan,
            Some(Fault::Accepted) => false,
            _ => nan && entry.is_complete(),
        };
        self.refused += usize::from(refused);
        self.accepted += usize::from(nan && !refused);
        self.lent.push(CompletedTrial {
            id: entry.trial,
            value: self.counted(&entry),
        });
        self.entries.push(entry);
        match entry.state {
            State::Complete => counts.told_complete += 1,
            State::Pruned => counts.told_pruned += 1,
            State::Failed => counts.told_failed += 1,
        }
        counts.told_nan += u64::from(nan && !entry.is_complete());
    }

    /// What the Rust is lent as an entry's value.
    fn counted(&self, entry: &Entry) -> f64 {
        let same = |e: &&Entry| e.trial == entry.trial && e.is_complete();
        match (self.fault, entry.state) {
            (Some(Fault::Pruned), State::Pruned) if !entry.value.is_nan() => entry.value,
            (Some(Fault::Failed), State::Failed) => f64::NEG_INFINITY,
            (Some(Fault::Accepted), State::Complete) if entry.value.is_nan() => f64::INFINITY,
            (Some(Fault::PassedOver), State::Pruned | State::Failed) => {
                self.entries.iter().rev().find(same).unwrap_or(entry).counted()
            }
            _ => entry.counted(),
        }
    }

    pub fn clear(&mut self) {
        *self = Self::with(self.fault);
    }

    /// How many entries it has.
    pub fn entries(&self) -> usize {
        self.entries.len()
    }

    /// The entries as the Rust reads them.
    pub fn lent(&self) -> &[CompletedTrial] {
        &self.lent
    }

    /// Refusal 8: a complete entry's value is NaN.
    pub fn is_bad(&self) -> bool {
        self.refused > 0
    }

    /// An incomplete entry's value is NaN.
    pub fn has_accepted_nan(&self) -> bool {
        self.accepted > 0
    }

    /// The states behind a closing's results, of which `least` is the least.
    pub fn count_results(&self, slots: &[u64], least: f64, counts: &mut Counts) {
        let mut last: HashMap<u64, &Entry> = HashMap::new();
        // A number with a complete entry that is not its last, and one with such an incomplete entry.
        let mut before: HashMap<u64, [bool; 2]> = HashMap::new();
        for entry in &self.entries {
            if let Some(earlier) = last.insert(entry.trial, entry) {
                before.entry(entry.trial).or_default()[usize::from(!earlier.is_complete())] = true;
            }
        }
        for trial in slots {
            let (entry, before) = (last[trial], before.get(trial).copied().unwrap_or_default());
            counts.results_pruned += u64::from(entry.state == State::Pruned);
            counts.results_failed += u64::from(entry.state == State::Failed);
            if entry.is_complete() {
                counts.results_mended += u64::from(before[1]);
                continue;
            }
            counts.results_nan += u64::from(entry.value.is_nan());
            counts.results_better += u64::from(entry.value < least);
            counts.results_withdrawn += u64::from(before[0]);
        }
        counts.closings_complete += u64::from(self.entries.iter().all(Entry::is_complete));
    }
}

#[cfg(test)]
mod tests {
    use super::*;
    use crate::driver::Driver;
    use crate::faults::tests::each_is_noticed;

    fn lent(fault: Option<Fault>, told: &[(f64, State)]) -> (Vec<f64>, bool) {
        let mut history = History::with(fault);
        for &(value, state) in told {
            history.tell(Entry { trial: 7, value, state }, &mut Counts::default());
        }
        (history.lent().iter().map(|t| t.value).collect(), history.is_bad())
    }

    /// Document 02's words, and each wrong reading of them.
    #[test]
    fn what_an_entry_counts_as() {
        let infinity = f64::INFINITY;
        let told = [
            (3.0, State::Complete),
            (-infinity, State::Pruned),
            (f64::NAN, State::Failed),
            (2.0, State::Complete),
        ];
        assert_eq!(lent(None, &told), (vec![3.0, infinity, infinity, 2.0], false));
        for (fault, expected) in [
            (Fault::Pruned, (vec![3.0, -infinity, infinity, 2.0], false)),
            (Fault::Failed, (vec![3.0, infinity, -infinity, 2.0], false)),
            (Fault::Refused, (vec![3.0, infinity, infinity, 2.0], true)),
            (Fault::PassedOver, (vec![3.0, 3.0, 3.0, 2.0], false)),
        ] {
            assert_eq!(lent(Some(fault), &told), expected, "{fault:?}");
        }
        let nan = [(f64::NAN, State::Complete)];
        assert!(lent(None, &nan).1);
        assert_eq!(lent(Some(Fault::Accepted), &nan), (vec![infinity], false));
    }

    /// Each wrong reading of an entry's state is noticed by few calls.
    #[test]
    fn each_fault_is_noticed() {
        each_is_noticed(&FAULTS, |fault| {
            let mut driver = Driver::default();
            driver.history = History::with(Some(fault));
            driver
        });
    }
}
