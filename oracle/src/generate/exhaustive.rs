//! Short scripts without chance: N = 4, one dimension of each kind and one space of three kinds, every order in
//! which the trials of the first generation start and finish, every order of their results with ties; and in some of
//! them a restart after one of their calls.

use super::distributions::{choice, float, int};
use super::ladders::ladder;
use super::section::Section;
use crate::distribution::Distribution;
use crate::midpoint::BoundsRule;
use crate::sampler::de::DEStrategy;
use crate::script::SetUp;

pub const STRATEGIES: [DEStrategy; 3] = [DEStrategy::Rand1, DEStrategy::Best1, DEStrategy::CurrentToBest1];

/// A trial of the first generation, from 0, starts or finishes.
#[derive(Clone, Copy, Debug, PartialEq)]
pub enum Event {
    Start(usize),
    Finish(usize),
}

/// One script of the family.
pub struct Case {
    pub space: usize,
    pub strategy: DEStrategy,
    pub events: Vec<Event>,
    pub ranks: [u8; 4],
}

/// The spaces: one dimension of each kind, and three kinds together.
pub fn spaces() -> [Vec<Distribution>; 7] {
    [
        vec![float(-1.0, 2.0, None)],
        vec![float(0.0, 1.0, Some(0.3))],
        vec![int(-5, 5, None)],
        vec![int(1, 11, Some(4))],
        vec![ladder(3, 64)],
        vec![choice(5)],
        vec![choice(3), float(0.0, 1.0, Some(0.25)), int(0, 9, None)],
    ]
}

/// All 105 ways in which four trials start in turn and finish, each after its start.
pub fn interleavings() -> Vec<Vec<Event>> {
    let mut all = Vec::new();
    extend(&mut Vec::new(), 0, &mut all);
    all
}

fn extend(so_far: &mut Vec<Event>, started: usize, all: &mut Vec<Vec<Event>>) {
    if so_far.len() == 8 {
        all.push(so_far.clone());
        return;
    }
    let running = (0..started).filter(|&i| !so_far.contains(&Event::Finish(i)));
    let mut events: Vec<Event> = running.map(Event::Finish).collect();
    if started < 4 {
        events.push(Event::Start(started));
    }
    for event in events {
        so_far.push(event);
        extend(so_far, started + usize::from(matches!(event, Event::Start(_))), all);
        so_far.pop();
    }
}

/// All 75 orders of four results, ties with them: ranks from 0 with none left out.
pub fn rankings() -> Vec<[u8; 4]> {
    let digits = |k: u8| [k & 3, k >> 2 & 3, k >> 4 & 3, k >> 6 & 3];
    let whole = |ranks: &[u8; 4]| (1..4).all(|r| !ranks.contains(&r) || ranks.contains(&(r - 1)));
    (0..=255).map(digits).filter(whole).collect()
}

/// Every order of finishing with one order of results, and every order of results with one of finishing.
pub fn short() -> Vec<Case> {
    let (orders, ranks) = (interleavings(), rankings());
    let mut pairs: Vec<(usize, usize)> = (0..orders.len()).map(|o| (o, o % ranks.len())).collect();
    pairs.extend((0..ranks.len()).map(|r| (r % orders.len(), r)));
    cases(&pairs, &orders, &ranks)
}

/// Every order of finishing with every order of results.
pub fn long() -> Vec<Case> {
    let (orders, ranks) = (interleavings(), rankings());
    let pairs: Vec<(usize, usize)> = (0..orders.len())
        .flat_map(|o| (0..ranks.len()).map(move |r| (o, r)))
        .collect();
    cases(&pairs, &orders, &ranks)
}

fn cases(pairs: &[(usize, usize)], orders: &[Vec<Event>], ranks: &[[u8; 4]]) -> Vec<Case> {
    let mut all = Vec::new();
    for space in 0..spaces().len() {
        for strategy in STRATEGIES {
            all.extend(pairs.iter().map(|&(o, r)| Case {
                space,
                strategy,
                events: orders[o].clone(),
                ranks: ranks[r],
            }));
        }
    }
    all
}

/// Results in the order of their ranks.
fn scale(ranks: [u8; 4], seed: u64) -> [f64; 4] {
    match seed % 4 {
        0 => [0.0, 1.0, 2.0, 3.0],
        1 => [f64::NEG_INFINITY, -0.0, f64::MAX, f64::INFINITY],
        2 if ranks.iter().all(|&r| r < 2) => [f64::MAX, f64::INFINITY, f64::INFINITY, f64::INFINITY],
        2 => [-5e-324, 0.0, 5e-324, 1.0],
        _ => [-1.5, 1e-300, f64::MAX, f64::INFINITY],
    }
}

impl Case {
    /// Two generations: the first as the case says, the second with the results turned round by one slot.
    pub fn section(&self, seed: u64) -> Section {
        let dims = &spaces()[self.space];
        // Prime, so that each place is met with each set-up; past the last call there is no restart.
        let restart_at = seed / 7 % 37;
        let result = |i: usize| scale(self.ranks, seed)[self.ranks[i] as usize];
        let mut s = Section::new(&SetUp {
            f: [0.8, 0.5, 1.0][(seed % 3) as usize],
            cr: [0.9, 0.0, 0.5, 1.0, 0.7][(seed % 5) as usize],
            strategy: self.strategy,
            size: Some(4),
            seed,
            rule: if (seed / 11).is_multiple_of(5) {
                BoundsRule::Midpoint
            } else {
                BoundsRule::Clamp
            },
        });
        for d in dims {
            call(&mut s, restart_at, 1, d);
        }
        let mut extra = false;
        for event in &self.events {
            match *event {
                Event::Start(i) => call(&mut s, restart_at, 2 + i as u64, &dims[0]),
                Event::Finish(i) => s.tell(2 + i as u64, result(i)),
            };
            // The first trial calls again while results are missing: an extra, and no closing.
            if !extra && s.open.len() == 4 && !s.ready() {
                extra = true;
                call(&mut s, restart_at, 1, &dims[0]);
            }
        }
        for trial in 6..10 {
            call(&mut s, restart_at, trial, &dims[0]);
        }
        for i in (0..4).rev() {
            s.tell(6 + i as u64, result((i + 1) % 4));
        }
        for d in dims {
            call(&mut s, restart_at, 10, d);
        }
        s.look();
        s
    }
}

/// A call; where it is the one before the restart, a further call of another trial is lost with the reboot. With midpoint
/// or a ladder the save is refused, and there is no restart.
fn call(s: &mut Section, restart_at: u64, trial: u64, d: &Distribution) {
    s.sample(trial, d);
    if s.calls == restart_at {
        s.save();
        if s.kept.is_some() {
            s.sample(99, d);
            s.restore();
        }
    }
}

#[cfg(test)]
mod tests {
    use super::*;

    #[test]
    fn the_family_is_whole() {
        assert_eq!(interleavings().len(), 105);
        assert_eq!(rankings().len(), 75);
        assert_eq!(short().len(), 7 * 3 * 180);
        assert_eq!(long().len(), 7 * 3 * 105 * 75);
    }

    #[test]
    fn each_case_closes_twice() {
        for (seed, case) in short().iter().enumerate() {
            assert_eq!(case.section(seed as u64).generations, 2);
        }
    }
}
