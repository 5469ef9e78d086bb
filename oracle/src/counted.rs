//! The results that a campaign's closings counted, each with the number by which it can be judged: how many calls its
//! trial had made, in the generation that counted it, before its value was told (docs/FINDINGS.md).

use std::collections::HashMap;
use std::fmt;

use crate::driver::{Driver, Malformed};
use crate::history::State;
use crate::script::{self, Command};

/// A counted result.
#[derive(Clone, Copy, Debug, PartialEq)]
pub struct Counted {
    /// The closed generations before the one that counted it.
    pub generation: u64,
    pub slot: usize,
    pub trial: u64,
    /// What counts: +infinity unless the state is complete.
    pub value: f64,
    pub state: State,
    /// The number.
    pub calls: usize,
    /// What it should be: D.
    pub dims: usize,
}

impl fmt::Display for Counted {
    fn fmt(&self, f: &mut fmt::Formatter<'_>) -> fmt::Result {
        let words = match self.calls {
            _ if self.state != State::Complete => "the entry is incomplete, so +infinity counts",
            0 => "the value is older than the vector",
            calls if calls < self.dims => "not measured with the vector",
            calls if calls == self.dims => "measured with the vector, as far as a log shows",
            _ => "asked past the last dimension: what it was handed there was random",
        };
        write!(
            f,
            "generation {} slot {} trial {} value {}: {} calls, D = {}: {words}",
            self.generation, self.slot, self.trial, self.value, self.calls, self.dims
        )
    }
}

/// What was told last of a trial.
struct Told {
    value: f64,
    state: State,
    generation: u64,
    /// The trial's calls in that generation up to then.
    calls: usize,
}

#[derive(Default)]
struct Log {
    driver: Driver,
    generation: u64,
    /// Each trial's calls in the open generation.
    calls: HashMap<u64, usize>,
    told: HashMap<u64, Told>,
    counted: Vec<Counted>,
}

/// The counted results of a script, in the order in which they were counted.
pub fn counted(script: &[u8]) -> Result<Vec<Counted>, Malformed> {
    let mut log = Log::default();
    for line in script.split_inclusive(|&b| b == b'\n') {
        log.line(line)?;
    }
    Ok(log.counted)
}

impl Log {
    fn line(&mut self, line: &[u8]) -> Result<(), Malformed> {
        let open = self.driver.probe().map_or(Vec::new(), |p| p.trials().to_vec());
        let mut answer = Vec::new();
        self.driver.raw_line(line, &mut answer)?;
        match script::parse(line.strip_suffix(b"\n").unwrap_or(line)) {
            Some(Command::New(_)) => {
                self.generation = 0;
                self.calls.clear();
                self.told.clear();
            }
            Some(Command::Clear) => self.told.clear(),
            Some(Command::Tell(entry)) => {
                let told = Told {
                    value: entry.counted(),
                    state: entry.state,
                    generation: self.generation,
                    calls: self.calls.get(&entry.trial).copied().unwrap_or(0),
                };
                self.told.insert(entry.trial, told);
            }
            Some(Command::Restore) if answer == b"restored\n" => self.restored(),
            Some(Command::Sample { trial, .. }) if !answer.starts_with(b"refused") => self.accepted(trial, &open),
            _ => (),
        }
        Ok(())
    }

    /// The restored state says how many generations have closed and how many calls its open trials have made; a value
    /// of another trial is older than any vector that it is given from now on.
    fn restored(&mut self) {
        let p = self.driver.probe().expect("a state was restored");
        let calls = |&trial: &u64| Some((trial, p.progress(trial)?.1));
        self.calls = p.trials().iter().filter_map(calls).collect();
        drop(p);
        self.generation = self.driver.closed();
        for (trial, told) in &mut self.told {
            if !self.calls.contains_key(trial) {
                told.calls = 0;
            }
        }
    }

    /// An accepted call: it has closed the generation where fewer trials are open than before.
    fn accepted(&mut self, trial: u64, open: &[u64]) {
        let p = self.driver.probe().expect("a call was accepted");
        if p.trials().len() < open.len() {
            for (slot, &trial) in open[..p.size()].iter().enumerate() {
                let told = &self.told[&trial];
                let now = told.generation == self.generation;
                self.counted.push(Counted {
                    generation: self.generation,
                    slot,
                    trial,
                    value: told.value,
                    state: told.state,
                    calls: if now { told.calls } else { 0 },
                    dims: p.dims(),
                });
            }
            self.generation += 1;
            self.calls.clear();
        }
        if p.active() {
            *self.calls.entry(trial).or_default() += 1;
        }
    }
}

#[cfg(test)]
mod tests {
    use super::*;

    /// The counted results of a finding whose number is not D: generation, slot, trial, number.
    fn marked(script: &str) -> Vec<(u64, usize, u64, usize)> {
        let all = counted(script.as_bytes()).unwrap();
        assert!(!all.is_empty());
        all.iter()
            .filter(|c| c.calls != c.dims)
            .map(|c| (c.generation, c.slot, c.trial, c.calls))
            .collect()
    }

    /// In each finding the number marks exactly the results that its head speaks of.
    #[test]
    fn the_number_marks_what_each_finding_shows() {
        let short = include_str!("../../campaigns/findings/discovery-cut-short.txt");
        assert_eq!(marked(short), [(0, 0, 1, 3), (0, 1, 0, 2), (0, 2, 2, 3), (0, 3, 3, 3)]);
        let straddles = include_str!("../../campaigns/findings/trial-straddles-a-closing.txt");
        assert_eq!(marked(straddles), [(1, 1, 5, 1)]);
        let own = include_str!("../../campaigns/findings/own-call-closes.txt");
        assert_eq!(marked(own), [(1, 0, 5, 1)]);
        let old = include_str!("../../campaigns/findings/old-result-counts-again.txt");
        assert_eq!(marked(old), [(1, 0, 2, 0)]);
        let again = include_str!("../../campaigns/findings/trial-asked-again.txt");
        assert_eq!(marked(again), [(0, 0, 1, 2)]);
        let never = include_str!("../../campaigns/findings/trial-never-reports.txt");
        assert_eq!(marked(never), []);
        let killed = include_str!("../../campaigns/findings/killed-trial-told-as-failed.txt");
        assert_eq!(marked(killed), []);
    }

    /// Why D is looked at first: cut short halfway, the first trial makes exactly D calls and was measured with another vector.
    #[test]
    fn a_discovery_cut_short_halfway_hides_from_the_number() {
        let mut script = String::from("new 3fe0000000000000 3feccccccccccccd rand1 4 1\n");
        for trial in [0, 0, 1, 0, 0, 1, 1, 1] {
            script += &format!("sample {trial} int 1 64 lin -\n");
        }
        script += &"sample 2 int 1 64 lin -\n".repeat(4);
        script += &"sample 3 int 1 64 lin -\n".repeat(4);
        for trial in 0..4 {
            script += &format!("tell {trial} 3ff0000000000000\n");
        }
        script += "sample 4 int 1 64 lin -\n";
        assert_eq!(marked(&script), [(0, 0, 1, 4), (0, 2, 2, 4), (0, 3, 3, 4)]);
    }
}
