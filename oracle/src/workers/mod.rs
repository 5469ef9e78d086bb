//! Eight workers over the Rust's own sampler, in virtual time: how often a slot comes to hold a value that was not
//! measured with its vector (docs/FINDINGS.md). No noise: a value is the objective of the settings of a run, so a slot
//! is wrong where its value is not the objective of its decoded vector.

use std::cmp::Reverse;
use std::collections::{BinaryHeap, VecDeque};
use std::ops::Range;

use self::gateway::{DIMS, Settings, as_asked, decoded, dimensions, measure};
use crate::distribution::Distribution;
use crate::generate::dice::Dice;
use crate::sampler::de::DESampler;
use crate::sampler::{CompletedTrial, Sampler};

pub mod gateway;
#[cfg(test)]
mod tests;

pub const WORKERS: usize = 8;
pub const SLOTS: usize = 20;

/// The time that a trial runs on average, in ticks of virtual time.
pub const RUN: u64 = 1_000_000;

/// How the workers share the sampler.
#[derive(Clone, Copy, Debug, PartialEq)]
pub enum Sharing {
    /// One lock a call, as the Rust has it; all workers start together.
    Call,
    /// The same, but the first trial asks for all its dimensions before any other worker starts.
    CallFirstAlone,
    /// One lock around a trial's calls; each call is lent the history as it stands.
    Trial,
    /// One lock around a trial's calls, which are all lent the history of the first.
    TrialOneHistory,
}

impl Sharing {
    fn locks_trial(self) -> bool {
        matches!(self, Self::Trial | Self::TrialOneHistory)
    }
}

/// What is simulated: `gap` ticks pass on average between two calls of a trial.
#[derive(Clone, Copy, Debug)]
pub struct Plan {
    pub sharing: Sharing,
    pub gap: u64,
    pub generations: u64,
}

/// What a campaign came to.
#[derive(Clone, Debug, Default, PartialEq)]
pub struct Outcome {
    /// D, and with D below DIMS nothing else: discovery was cut short.
    pub dims: usize,
    /// Slots whose value is not the objective of their vector at the end.
    pub wrong: usize,
    /// The best slot's value, and the objective of its vector.
    pub best: (f64, f64),
    /// Counted results by the calls that the trial had made, in the generation that counted it, before it was told:
    /// fewer than D, exactly D, more; each with how many were not the objective of their vector.
    pub counted: [(u64, u64); 3],
}

#[derive(Default)]
struct Worker {
    trial: u64,
    /// How many dimensions it has asked for.
    asked: usize,
    settings: Settings,
    /// How many entries the history had at the trial's first call.
    lent: usize,
}

/// A trial of the open generation.
struct Open {
    trial: u64,
    /// The objective of its candidate.
    objective: f64,
    calls: usize,
    /// Its value, and how many calls it had made when it was told.
    told: Option<(f64, usize)>,
}

#[derive(Clone, Copy, PartialEq, Eq, PartialOrd, Ord)]
enum Event {
    Begin,
    Call,
    Tell,
}

struct Campaign {
    plan: Plan,
    sampler: DESampler,
    dice: Dice,
    dims: [Distribution; DIMS],
    history: Vec<CompletedTrial>,
    workers: Vec<Worker>,
    next_trial: u64,
    /// What happens when, to whom; of two at the same time the one that was planned first.
    queue: BinaryHeap<Reverse<(u64, u64, usize, Event)>>,
    planned: u64,
    now: u64,
    /// Who holds the lock around a trial's calls, and who waits for it.
    held: bool,
    waiting: VecDeque<usize>,
    open: Vec<Open>,
    closed: u64,
    counted: [(u64, u64); 3],
}

/// Runs one campaign. The same plan and seed give the same outcome.
pub fn campaign(plan: Plan, seed: u64) -> Outcome {
    let mut c = Campaign {
        plan,
        sampler: DESampler::builder().population_size(SLOTS).seed(seed).build(),
        dice: Dice::new(seed),
        dims: dimensions(),
        history: Vec::new(),
        workers: (0..WORKERS).map(|_| Worker::default()).collect(),
        next_trial: 0,
        queue: BinaryHeap::new(),
        planned: 0,
        now: 0,
        held: false,
        waiting: VecDeque::new(),
        open: Vec::new(),
        closed: 0,
        counted: Default::default(),
    };
    match plan.sharing {
        Sharing::CallFirstAlone => c.start(0..1),
        _ => c.start(0..WORKERS),
    }
    while c.closed < plan.generations && !c.cut_short() {
        let Reverse((time, _, worker, event)) = c.queue.pop().expect("a worker always has something to do");
        c.now = time;
        match event {
            Event::Begin => c.begin(worker),
            Event::Call => c.call(worker),
            Event::Tell => c.tell(worker),
        }
    }
    c.outcome()
}

impl Campaign {
    /// These workers start together: each begins within one gap.
    fn start(&mut self, workers: Range<usize>) {
        for worker in workers {
            let wait = self.dice.between(0, self.plan.gap as usize) as u64;
            self.plan(wait, worker, Event::Begin);
        }
    }

    fn cut_short(&self) -> bool {
        let p = self.sampler.probe();
        p.active() && p.dims() < DIMS
    }

    fn plan(&mut self, wait: u64, worker: usize, event: Event) {
        self.planned += 1;
        self.queue.push(Reverse((self.now + wait, self.planned, worker, event)));
    }

    /// From half to one and a half times the mean.
    fn about(&mut self, mean: u64) -> u64 {
        self.dice.between(mean as usize / 2, (mean + mean / 2) as usize) as u64
    }

    /// A worker begins its next trial, as soon as it has the lock if there is one.
    fn begin(&mut self, worker: usize) {
        if self.plan.sharing.locks_trial() {
            if self.held {
                self.waiting.push_back(worker);
                return;
            }
            self.held = true;
        }
        self.take_number(worker);
    }

    fn take_number(&mut self, worker: usize) {
        let trial = self.next_trial;
        self.next_trial += 1;
        self.workers[worker] = Worker {
            trial,
            ..Worker::default()
        };
        self.plan(0, worker, Event::Call);
    }

    /// One call of a trial, the next after a gap. After its last the trial runs, and the lock goes to the next.
    fn call(&mut self, worker: usize) {
        let w = &mut self.workers[worker];
        if w.asked == 0 {
            w.lent = self.history.len();
        }
        let lent = match self.plan.sharing {
            Sharing::TrialOneHistory => w.lent,
            _ => self.history.len(),
        };
        let (trial, asked) = (w.trial, w.asked);
        let before = self.sampler.probe().trials().len();
        let answer = self.sampler.sample(&self.dims[asked], trial, &self.history[..lent]);
        w.settings[asked] = as_asked(&answer, &self.dims[asked]);
        w.asked += 1;
        self.note(trial, before);
        if asked + 1 < DIMS {
            let wait = self.about(self.plan.gap);
            return self.plan(wait, worker, Event::Call);
        }
        let wait = self.about(RUN);
        self.plan(wait, worker, Event::Tell);
        if let Some(next) = self.waiting.pop_front() {
            self.take_number(next);
        } else {
            self.held = false;
        }
        if trial == 0 && self.plan.sharing == Sharing::CallFirstAlone {
            self.start(1..WORKERS);
        }
    }

    /// Keeps count of the open trials' calls, and of what a closing counted. It closed where fewer trials are open.
    fn note(&mut self, trial: u64, before: usize) {
        let p = self.sampler.probe();
        if !p.active() || p.dims() < DIMS {
            return;
        }
        if p.trials().len() < before {
            self.closed += 1;
            for open in self.open.drain(..).take(SLOTS) {
                let (value, calls) = open.told.expect("a counted trial was told");
                let (all, wrong) = &mut self.counted[1 + usize::from(calls > DIMS) - usize::from(calls < DIMS)];
                *all += 1;
                *wrong += u64::from(value != open.objective);
            }
        }
        if let Some(open) = self.open.iter_mut().find(|open| open.trial == trial) {
            open.calls += 1;
            return;
        }
        let (place, _) = p.progress(trial).expect("the trial is open");
        self.open.push(Open {
            trial,
            objective: measure(&decoded(&p, &p.candidate(place))),
            calls: 1,
            told: None,
        });
    }

    /// A trial has run: its value joins the history, and the worker begins its next.
    fn tell(&mut self, worker: usize) {
        let Worker { trial, settings, .. } = self.workers[worker];
        let value = measure(&settings);
        self.history.push(CompletedTrial { id: trial, value });
        if let Some(open) = self.open.iter_mut().find(|open| open.trial == trial) {
            open.told = Some((value, open.calls));
        }
        self.begin(worker);
    }

    fn outcome(&self) -> Outcome {
        let p = self.sampler.probe();
        if p.dims() < DIMS {
            return Outcome {
                dims: p.dims(),
                ..Outcome::default()
            };
        }
        let objective = |slot: usize| measure(&decoded(&p, &p.parent(slot)));
        Outcome {
            dims: p.dims(),
            wrong: (0..p.size())
                .filter(|&slot| objective(slot) != p.values()[slot])
                .count(),
            best: (p.values()[p.best()], objective(p.best())),
            counted: self.counted,
        }
    }
}
