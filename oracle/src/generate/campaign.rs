//! Plays a plan: workers that start trials, call, finish in any order, and do what they should not.

use std::collections::HashMap;

use super::dice::Dice;
use super::distributions;
use super::ladders;
use super::plan::{Each, Numbers, Plan};
use super::refused;
use super::section::Section;
use super::values;
use crate::distribution::Distribution;
use crate::history::{Entry, State};
use crate::judge;
use crate::ladder;

/// A trial that has not been told.
struct Run {
    number: u64,
    left: usize,
    slow: bool,
}

pub(super) struct Play<'a> {
    pub(super) s: Section,
    pub(super) plan: &'a Plan,
    pub(super) dice: &'a mut Dice,
    running: Vec<Run>,
    next: u64,
    /// The last entry of every trial told so far, to tell it again after a clearing.
    results: HashMap<u64, Entry>,
    /// Results that a clearing took away and that come back one by one.
    lost: Vec<u64>,
}

/// The section that a plan makes.
pub fn play(plan: &Plan, dice: &mut Dice) -> Section {
    let mut p = Play {
        s: Section::new(&plan.setup),
        plan,
        dice,
        running: Vec::new(),
        next: plan.start,
        results: HashMap::new(),
        lost: Vec::new(),
    };
    p.discover();
    while p.s.closed < plan.generations && p.s.calls < plan.most_calls {
        p.step();
    }
    p.s.look();
    p.s.state();
    p.s
}

impl Play<'_> {
    fn discover(&mut self) {
        let first = self.new_number();
        for d in &self.plan.dims {
            if self.s.calls >= self.plan.most_calls {
                return;
            }
            self.aside();
            self.restarts();
            self.s.sample(first, d);
        }
        if self.plan.chances.refused > 0 && self.s.dims.len() == judge::MOST_DIMS {
            let d = distributions::accepted(self.dice);
            self.s.sample(first, &d);
        }
        if self.dice.percent(60) {
            self.tell(first);
        }
    }

    pub(super) fn new_number(&mut self) -> u64 {
        let number = self.next;
        self.next = match self.plan.numbers {
            Numbers::Up => number.wrapping_add(1),
            Numbers::Down => number.wrapping_sub(1),
            Numbers::Random => self.dice.word(),
        };
        number
    }

    /// One thing after the other until the plan is done.
    fn step(&mut self) {
        if self.s.full() && !self.s.ready() {
            return self.release();
        }
        if self.s.entries > self.plan.most_entries {
            self.clear_history(true);
        }
        self.mischief();
        self.aside();
        self.restarts();
        let idle = self.running.len() < self.plan.workers;
        if self.running.is_empty() || (idle && self.dice.percent(40)) {
            return self.start();
        }
        let at = self.dice.below(self.running.len());
        let run = &mut self.running[at];
        let number = run.number;
        if run.left > 0 {
            run.left -= 1;
            self.call(number);
        } else if !run.slow || (!self.plan.hold && self.dice.once_in(8)) {
            self.running.swap_remove(at);
            self.tell(number);
        } else if self.plan.hold {
            self.start();
        }
    }

    fn start(&mut self) {
        let number = self.new_number();
        let held = self.plan.hold && self.s.open.is_empty();
        if self.dice.percent(self.plan.chances.early) {
            self.tell(number);
        }
        let closes = self.call(number);
        let d = self.plan.dims.len();
        let calls = match self.plan.each {
            Each::One => 1,
            Each::All => d,
            Each::Fewer => self.dice.between(1, d),
            Each::More => d + self.dice.below(4),
        };
        let slow = if self.plan.hold {
            held || closes
        } else {
            self.dice.percent(self.plan.chances.slow)
        };
        self.running.push(Run {
            number,
            left: calls - 1,
            slow,
        });
    }

    /// A call of a trial with the distribution of its next place, or with another.
    pub(super) fn call(&mut self, number: u64) -> bool {
        let place = if self.s.ready() { 0 } else { self.s.calls_of(number) };
        let d = self.lent(place);
        self.s.sample(number, &d)
    }

    fn lent(&mut self, place: usize) -> Distribution {
        match self.s.dims.get(place) {
            Some(d) if !self.dice.percent(self.plan.chances.lent) => d.clone(),
            _ => ladders::or_another(self.dice),
        }
    }

    fn tell(&mut self, number: u64) {
        if self.dice.percent(self.plan.chances.twice) {
            let other = self.entry(number);
            self.s.tell_entry(other);
        }
        let last = self.entry(number);
        self.results.insert(number, last);
        self.s.tell_entry(last);
    }

    /// What is told of a trial.
    fn entry(&mut self, trial: u64) -> Entry {
        let value = self.value();
        if self.dice.percent(self.plan.chances.incomplete) {
            return values::incomplete(trial, value, self.dice);
        }
        let state = State::Complete;
        Entry { trial, value, state }
    }

    /// A result; with a trial held back those of the others are better than any that counts.
    fn value(&mut self) -> f64 {
        let value = self.plan.values.next(self.dice, self.s.closed);
        let extra = self.s.n.is_some_and(|n| self.s.open.len() > n);
        if self.plan.hold && extra && self.dice.percent(50) {
            return -1e6;
        }
        value
    }

    /// 64 extras are given: what is missing must come, or every further trial is refused.
    fn release(&mut self) {
        if self.plan.chances.refused > 0 {
            let number = self.new_number();
            self.call(number);
        }
        for number in self.s.missing() {
            self.running.retain(|run| run.number != number);
            match self.results.get(&number) {
                Some(&entry) => self.s.tell_entry(entry),
                None => self.tell(number),
            }
        }
    }

    pub(super) fn clear_history(&mut self, all_back: bool) {
        self.s.clear();
        self.tell_again(all_back);
    }

    /// The results of the open trials into an empty history, all of them or some.
    pub(super) fn tell_again(&mut self, all_back: bool) {
        let known = |t: &u64| self.results.contains_key(t);
        let mut back: Vec<u64> = self.s.open.iter().copied().filter(known).collect();
        self.dice.shuffle(&mut back);
        self.lost = if all_back {
            Vec::new()
        } else {
            let kept = self.dice.below(back.len() + 1);
            back.split_off(kept)
        };
        for number in back {
            self.s.tell_entry(self.results[&number]);
        }
    }

    fn mischief(&mut self) {
        let chances = &self.plan.chances;
        if self.dice.percent(chances.stranger) {
            let number = self.dice.word();
            self.tell(number);
        }
        if self.dice.percent(chances.clear) {
            self.clear_history(false);
        }
        if !self.lost.is_empty() && self.dice.once_in(3) {
            let number = self.lost.swap_remove(self.dice.below(self.lost.len()));
            self.s.tell_entry(self.results[&number]);
        }
        if !self.s.old.is_empty() && self.dice.percent(chances.old) {
            let number = *self.dice.pick(&self.s.old);
            self.call(number);
        }
        if let Some(first) = self.s.first
            && self.s.n.is_some()
            && self.dice.percent(chances.first)
        {
            self.call(first);
        }
        if self.dice.percent(chances.refused) {
            self.refused_call();
        }
    }

    /// A call that is refused, often for more than one reason.
    fn refused_call(&mut self) {
        let number = match self.dice.below(3) {
            0 => self.s.first.unwrap_or(self.next),
            1 if !self.s.open.is_empty() => *self.dice.pick(&self.s.open),
            _ => self.next,
        };
        let nan = self.dice.percent(30);
        if nan {
            let pattern = *self.dice.pick(&values::NANS);
            let about = *self.dice.pick(&[number, u64::MAX]);
            self.s.tell(about, pattern);
            // A later entry of the same number does not mend it, whatever its state.
            match self.dice.below(4) {
                0 | 1 => self.s.tell(about, 1.0),
                2 => self.s.tell_entry(values::incomplete(about, 1.0, self.dice)),
                _ => (),
            }
        }
        let ladders = self.s.dims.iter().any(ladder::is_ladder);
        let d = if nan && self.dice.percent(70) {
            ladders::or_another(self.dice)
        } else if ladders && self.dice.percent(60) {
            ladders::refused(self.dice)
        } else {
            refused::some(self.dice)
        };
        self.s.sample(number, &d);
        if nan {
            self.clear_history(true);
        }
    }

    /// A look or a state now and then, seldom where a state is long.
    fn aside(&mut self) {
        if self.dice.once_in(25) {
            self.s.look();
        }
        let long = self.s.n.unwrap_or(1) * self.s.dims.len().max(1);
        if self.dice.once_in(20 + long) {
            self.s.state();
        }
    }
}
