//! A campaign of a gateway's disk: block quota, flush interval, queue depth and I/O scheduler are tuned against a
//! stand-in for the measurement, so that every run gives the same table.
//!
//!     gateway             the table
//!     gateway --script    the same calls as a script for the program `replay`
//!     gateway --answers   what `replay` must write for that script

use std::fmt::Write as _;
use std::io::{self, Write as _};
use std::process::ExitCode;

use emkhurtov::{CompletedTrial, DEStrategy, Distribution, Look, ParamValue, Refusal, Sampled, Sampler};

mod disk;

use disk::{Settings, dimensions, measure};

// The set-up is docs/GUIDE.md's for few trials.
const SLOTS: u64 = 12;
const SEED: u64 = 2026;
/// The first trial finds the dimensions; twelve generations follow, and the last trial's call closes the twelfth.
const TRIALS: u64 = 2 + 12 * SLOTS;
const F: f64 = 0.7;
const CR: f64 = 0.9;

const SCHEDULERS: [&str; 4] = ["none", "mq-deadline", "kyber", "bfq"];

/// A distribution's words in a script.
fn words(distribution: &Distribution) -> String {
    let bits = |x: f64| format!("{:016x}", x.to_bits());
    match *distribution {
        Distribution::Float(d) => {
            let step = d.step.map_or("-".to_owned(), bits);
            format!("float {} {} lin {step}", bits(d.low), bits(d.high))
        }
        Distribution::Int(d) => {
            let step = d.step.map_or("-".to_owned(), |step| step.to_string());
            format!("int {} {} lin {step}", d.low, d.high)
        }
        Distribution::Categorical(d) => format!("choice {}", d.n_choices),
    }
}

/// The three things that a run can print.
#[derive(Default)]
struct Run {
    table: String,
    script: String,
    answers: String,
}

impl Run {
    fn sampled(&mut self, trial: u64, words: &str, sampled: Sampled) {
        let _ = writeln!(self.script, "sample {trial} {words}");
        let _ = match sampled.setting {
            ParamValue::Float(x) => writeln!(self.answers, "float {:016x} {}", x.to_bits(), sampled.draws),
            ParamValue::Int(k) => writeln!(self.answers, "int {k} {}", sampled.draws),
            ParamValue::Categorical(c) => writeln!(self.answers, "choice {c} {}", sampled.draws),
        };
    }

    /// A trial, with the closed and the idle generations so far.
    fn told(&mut self, trial: u64, closed: u64, idle: u64, s: Settings, value: f64, least: bool) {
        let _ = writeln!(self.script, "tell {trial} {:016x}", value.to_bits());
        let mark = if least { " *" } else { "" };
        let scheduler = SCHEDULERS[s.scheduler as usize];
        let _ = writeln!(
            self.table,
            "{trial:>5} {closed:>5} {idle:>5} {:>8.1} {:>6} {:>6}  {scheduler:<11} {value:>9.3}{mark}",
            s.quota, s.flush, s.depth,
        );
    }

    fn looked(&mut self, look: &Look) {
        let _ = writeln!(self.script, "look");
        let _ = write!(self.answers, "look {} {} {}", look.best, look.closed, look.idle);
        for value in &look.values {
            let _ = write!(self.answers, " {:016x}", value.to_bits());
        }
        let _ = writeln!(self.answers);
    }

    fn ended(&mut self, look: &Look) {
        let kept = Settings::of(&look.settings).expect("a slot has a setting for each dimension");
        let _ = writeln!(
            self.table,
            "\nbest: {:.3} ms with quota {:.1} MB/s, flush every {} ms, depth {}, {} (slot {})",
            look.best_value(),
            kept.quota,
            kept.flush,
            kept.depth,
            SCHEDULERS[kept.scheduler as usize],
            look.best,
        );
        let _ = writeln!(
            self.table,
            "generations closed: {}; since the least value last became smaller: {}",
            look.closed, look.idle
        );
    }
}

/// One trial's settings.
fn ask(sampler: &mut Sampler, trial: u64, history: &[CompletedTrial], run: &mut Run) -> Result<Settings, Refusal> {
    let mut settings = Vec::new();
    for distribution in &dimensions() {
        let sampled = sampler.sample(distribution, trial, history)?;
        run.sampled(trial, &words(distribution), sampled);
        settings.push(sampled.setting);
    }
    Ok(Settings::of(&settings).expect("each dimension was asked for, and answers are of its kind"))
}

fn campaign() -> Result<Run, Refusal> {
    let mut run = Run::default();
    let mut sampler = Sampler::builder()
        .mutation_factor(F)
        .crossover_rate(CR)
        .strategy(DEStrategy::CurrentToBest1)
        .population_size(SLOTS)
        .seed(SEED)
        .build()?;
    let _ = writeln!(
        run.script,
        "# A campaign of a gateway's disk: block quota, flush interval, queue depth, I/O scheduler."
    );
    let _ = writeln!(
        run.script,
        "new {:016x} {:016x} current-to-best1 {SLOTS} {SEED}",
        F.to_bits(),
        CR.to_bits()
    );
    let _ = writeln!(run.answers, "new");
    let _ = writeln!(
        run.table,
        "trial   gen  idle    quota  flush  depth  scheduler      p99 ms"
    );
    let mut history = Vec::new();
    let mut least = f64::INFINITY;
    let (mut closed, mut idle) = (0, 0);
    for trial in 0..TRIALS {
        let settings = ask(&mut sampler, trial, &history, &mut run)?;
        if let Some(look) = sampler.look()? {
            if look.closed > closed {
                run.looked(&look);
            }
            (closed, idle) = (look.closed, look.idle);
        }
        let value = measure(settings);
        run.told(trial, closed, idle, settings, value, value < least);
        least = least.min(value);
        history.push(CompletedTrial::new(trial, value));
    }
    let look = sampler.look()?.expect("twelve generations have closed");
    run.ended(&look);
    Ok(run)
}

fn main() -> ExitCode {
    let run = match campaign() {
        Ok(run) => run,
        Err(refusal) => {
            eprintln!("gateway: {refusal}");
            return ExitCode::FAILURE;
        }
    };
    let text = match std::env::args().nth(1).as_deref() {
        None => run.table,
        Some("--script") => run.script,
        Some("--answers") => run.answers,
        Some(other) => {
            eprintln!("gateway: {other} is none of --script, --answers");
            return ExitCode::FAILURE;
        }
    };
    if let Err(e) = io::stdout().write_all(text.as_bytes()) {
        eprintln!("gateway: {e}");
        return ExitCode::FAILURE;
    }
    ExitCode::SUCCESS
}
