//! The sections of a run, one after the other, the same for the same seed and number of calls.

use std::collections::BTreeMap;

use super::campaign;
use super::class::{Class, TURNS};
use super::dice::Dice;
use super::exhaustive::{self, Case};
use super::plan::Plan;
use super::rate;
use super::refused;
use super::scattered;
use super::section::Section;

/// From so many calls on, the short exhaustive family is run whole.
pub const SHORT_FROM: u64 = 100_000;

/// From so many calls on, the long one is.
pub const LONG_FROM: u64 = 4_000_000;

/// What was aimed at in a class.
#[derive(Clone, Copy, Debug, Default)]
pub struct Aim {
    pub sections: u64,
    pub calls: u64,
    pub closings: u64,
}

/// What was aimed at, by class.
pub type Aims = BTreeMap<&'static str, Aim>;

/// An iterator over the sections' texts.
pub struct Stream {
    dice: Dice,
    seed: u64,
    wanted: u64,
    cases: std::vec::IntoIter<Case>,
    turn: usize,
    /// Accepted calls so far, and closings that the sections' ledgers expect.
    pub calls: u64,
    pub closed: u64,
    pub aims: Aims,
}

impl Stream {
    pub fn new(seed: u64, calls: u64) -> Self {
        let cases = if calls >= LONG_FROM {
            exhaustive::long()
        } else if calls >= SHORT_FROM {
            exhaustive::short()
        } else {
            Vec::new()
        };
        Self {
            dice: Dice::new(seed),
            seed,
            wanted: calls,
            cases: cases.into_iter(),
            turn: 0,
            calls: 0,
            closed: 0,
            aims: Aims::new(),
        }
    }

    fn next_section(&mut self) -> (&'static str, Section) {
        self.turn += 1;
        if let Some(case) = self.cases.next() {
            let seed = self.seed.wrapping_add(self.turn as u64);
            return ("every short script", case.section(seed));
        }
        let class = TURNS[self.turn % TURNS.len()];
        let plan = Plan::random(class, &mut self.dice);
        let mut section = campaign::play(&plan, &mut self.dice);
        if class == Class::Rate {
            rate::meet(&mut section, &plan.setup, &mut self.dice);
        }
        if plan.restarts && self.dice.percent(40) {
            scattered::scatter(&mut section, &mut self.dice);
        }
        if class == Class::Refusals {
            // A refused set-up first: nothing may be left of it. Its own line alone, since no state follows.
            let setup = refused::set_up(&plan.setup, &mut self.dice);
            let mut head = Section::new(&setup);
            head.text.append(&mut section.text);
            section.text = head.text;
        }
        (class.name(), section)
    }
}

impl Iterator for Stream {
    type Item = Vec<u8>;

    fn next(&mut self) -> Option<Vec<u8>> {
        if self.calls >= self.wanted && self.cases.len() == 0 {
            return None;
        }
        let (name, section) = self.next_section();
        self.calls += section.accepted;
        self.closed += section.closed;
        let aim = self.aims.entry(name).or_default();
        aim.sections += 1;
        aim.calls += section.accepted;
        aim.closings += section.closed;
        Some(section.text)
    }
}

#[cfg(test)]
mod tests {
    use super::*;

    #[test]
    fn the_same_seed_gives_the_same_sections() {
        let text = |seed| Stream::new(seed, 3_000).collect::<Vec<_>>();
        assert_eq!(text(5), text(5));
        assert_ne!(text(5), text(6));
    }
}
