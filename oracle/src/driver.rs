//! Runs a script through the Rust: one line in, its answer out. The two counters of `look`, the refusals, midpoint and ladders
//! are written from documents 01 and 02, since the Rust has none of them.

use std::io::{self, BufRead, Write};

use crate::answers;
use crate::campaign::Campaign;
use crate::closing::Before;
use crate::counts::Counts;
use crate::distribution::Distribution;
use crate::entries;
use crate::history::History;
use crate::judge;
use crate::kept::Kept;
use crate::ladder;
use crate::midpoint::{BoundsRule, Reading};
use crate::sampler::de::{DESampler, Probe};
use crate::script::{self, Command, SetUp};
use crate::text;

/// The script breaks the rules; the run has ended.
#[derive(Debug)]
pub struct Malformed;

/// What is kept from line to line.
#[derive(Default)]
pub struct Driver {
    campaign: Option<Campaign>,
    pub(crate) history: History,
    pub(crate) reading: Reading,
    pub(crate) limits: entries::Reading,
    pub(crate) ladders: ladder::Reading,
    kept: Kept,
    line: u64,
    pub counts: Counts,
}

impl Driver {
    /// Runs a whole script, up to its end or its first malformed line.
    pub fn run(&mut self, mut input: impl BufRead, mut output: impl Write) -> io::Result<()> {
        let mut line = Vec::new();
        let mut out = Vec::new();
        loop {
            line.clear();
            out.clear();
            if input.read_until(b'\n', &mut line)? == 0 {
                return output.flush();
            }
            let said = self.raw_line(&line, &mut out);
            output.write_all(&out)?;
            if said.is_err() {
                return output.flush();
            }
        }
    }

    /// One line, its line feed with it.
    pub fn raw_line(&mut self, line: &[u8], out: &mut Vec<u8>) -> Result<(), Malformed> {
        self.line += 1;
        let from = out.len();
        let said = match line.strip_suffix(b"\n") {
            Some(words) => self.obey(words, out),
            None => Err(Malformed),
        };
        if said.is_err() {
            out.truncate(from);
            out.extend_from_slice(b"malformed ");
            text::whole(out, self.line);
            out.push(b'\n');
        }
        self.counts.lines += u64::from(out.len() > from);
        said
    }

    fn obey(&mut self, words: &[u8], out: &mut Vec<u8>) -> Result<(), Malformed> {
        match script::parse(words).ok_or(Malformed)? {
            Command::Blank => Ok(()),
            Command::New(setup) => {
                self.new_campaign(&setup, out);
                Ok(())
            }
            Command::Clear => {
                self.history.clear();
                if let Some(c) = &mut self.campaign {
                    c.cleared = true;
                }
                Ok(())
            }
            Command::Tell(entry) => {
                if self.history.entries() == script::LONGEST_HISTORY {
                    return Err(Malformed);
                }
                self.history.tell(entry, &mut self.counts);
                Ok(())
            }
            Command::Sample { trial, distribution } => self.sample(trial, &distribution, out),
            Command::Look => {
                let c = self.campaign.as_ref().ok_or(Malformed)?;
                answers::look(c, &mut self.counts, out);
                Ok(())
            }
            Command::State => {
                let c = self.campaign.as_ref().ok_or(Malformed)?;
                self.counts.states += 1;
                entries::assert_small(c, &mut self.counts);
                answers::state(&c.sampler.probe(), out);
                Ok(())
            }
            Command::Save => self.save(out),
            Command::Restore => {
                self.restore(out);
                Ok(())
            }
            Command::File { length } => self.kept.blank(length),
            Command::Put { offset, bytes } => self.kept.put(offset, &bytes),
            Command::Bytes => {
                self.counts.bytes += 1;
                self.kept.write(out);
                Ok(())
            }
        }
    }

    /// The generator's word, where there is a sampler.
    pub fn word(&self) -> Option<u64> {
        self.campaign.as_ref().map(|c| c.sampler.probe().word())
    }

    /// The sampler's private state, where there is a sampler.
    pub fn probe(&self) -> Option<Probe<'_>> {
        self.campaign.as_ref().map(|c| c.sampler.probe())
    }

    /// The kept file.
    pub fn kept_file(&self) -> &[u8] {
        self.kept.file()
    }

    /// The closed generations.
    pub fn closed(&self) -> u64 {
        self.campaign.as_ref().map_or(0, |c| u64::from(c.closed))
    }

    fn new_campaign(&mut self, setup: &SetUp, out: &mut Vec<u8>) {
        self.history.clear();
        self.campaign = None;
        if let Some(k) = judge::set_up(setup) {
            return self.refuse(k, out);
        }
        let mut builder = DESampler::builder()
            .mutation_factor(setup.f)
            .crossover_rate(setup.cr)
            .strategy(setup.strategy)
            .seed(setup.seed);
        if let Some(size) = setup.size {
            builder = builder.population_size(size as usize);
        }
        self.campaign = Some(Campaign::new(builder.build(), setup));
        let c = &mut self.counts;
        c.sections += 1;
        c.rule_midpoint += u64::from(setup.rule == BoundsRule::Midpoint);
        match setup.size {
            None => c.size_unset += 1,
            Some(0..=3) => c.size_raised += 1,
            Some(4) => c.size_4 += 1,
            Some(5) => c.size_5 += 1,
            Some(160) => c.size_160 += 1,
            Some(_) => (),
        }
        out.extend_from_slice(b"new\n");
    }

    fn refuse(&mut self, k: u8, out: &mut Vec<u8>) {
        self.counts.refused[k as usize] += 1;
        out.extend_from_slice(b"refused ");
        text::whole(out, u64::from(k));
        out.push(b'\n');
    }

    fn save(&mut self, out: &mut Vec<u8>) -> Result<(), Malformed> {
        let c = self.campaign.as_ref().ok_or(Malformed)?;
        let rule_fits = self.reading.has_place(c.rule);
        let dims_fit = self.ladders.has_place(&c.sampler.probe());
        if !rule_fits || !dims_fit {
            self.counts.saves_midpoint += u64::from(!rule_fits);
            self.counts.saves_ladder += u64::from(!dims_fit);
            if !rule_fits && !self.reading.file_stays() {
                self.kept = Kept::default();
            }
            self.refuse(13, out);
            return Ok(());
        }
        let length = self.kept.save(c);
        let p = c.sampler.probe();
        self.counts.saves += 1;
        self.counts.saves_fresh += u64::from(p.first().is_none());
        self.counts.saves_discovery += u64::from(p.first().is_some() && !p.active());
        self.counts.saves_first += u64::from(p.active() && c.closed == 0);
        self.counts.saves_later += u64::from(c.closed > 0);
        self.counts.saves_extras += u64::from(p.active() && p.trials().len() > p.size());
        self.counts.saves_restored += u64::from(c.restored);
        out.extend_from_slice(b"saved ");
        text::whole(out, length as u64);
        out.push(b'\n');
        Ok(())
    }

    /// The history is the caller's and stays.
    fn restore(&mut self, out: &mut Vec<u8>) {
        match self.kept.restore(self.limits) {
            Ok((mut c, known)) => {
                self.counts.restores += 1;
                self.counts.restores_unsaved += u64::from(!known);
                self.counts.restores_stateless += u64::from(self.campaign.is_none());
                self.counts.restores_moved += u64::from(!self.kept.is_canonical());
                let before = self.campaign.as_ref().map_or(BoundsRule::Clamp, |before| before.rule);
                let ladder = self.probe().is_some_and(|p| ladder::among(&p));
                self.counts.restores_midpoint += u64::from(before == BoundsRule::Midpoint);
                self.counts.restores_ladder += u64::from(ladder);
                c.rule = self.reading.restored(before);
                c.restored = true;
                c.limits = self.limits;
                entries::assert_small(&c, &mut self.counts);
                self.counts.restores_unmade += u64::from(entries::has_unmade(&c.sampler.probe()));
                self.campaign = Some(c);
                out.extend_from_slice(b"restored\n");
            }
            Err(k) => {
                self.counts.restores_too_large += u64::from(self.kept.is_too_large());
                self.refuse(k, out);
            }
        }
    }

    fn sample(&mut self, trial: u64, d: &Distribution, out: &mut Vec<u8>) -> Result<(), Malformed> {
        let c = self.campaign.as_mut().ok_or(Malformed)?;
        let p = c.sampler.probe();
        if let Some(k) = judge::sample(&p, d, trial, &self.history, self.ladders) {
            drop(p);
            self.refuse(k, out);
            return Ok(());
        }
        let before = Before::of(&p, trial);
        drop(p);
        self.counts.restarted += u64::from(c.restored);
        self.counts.nan_answered += u64::from(self.history.has_accepted_nan());
        self.counts.midpoint += u64::from(c.rule == BoundsRule::Midpoint);
        self.reading.take_effect();
        self.ladders.take_effect();
        let answer = c.sample(d, trial, self.history.lent());
        before.compare(c, d, trial, &answer, &self.history, &mut self.counts);
        let draws = c.sampler.probe().draws() - before.draws;
        if draws > 0 {
            entries::assert_small(c, &mut self.counts);
        }
        self.counts.laddered += u64::from(ladder::among(&c.sampler.probe()));
        self.counts.extreme += u64::from(c.f == 2.0 && entries::has_extreme_bounds(&c.sampler.probe()));
        answers::setting(&answer, out);
        out.push(b' ');
        text::whole(out, draws);
        out.push(b'\n');
        Ok(())
    }
}
