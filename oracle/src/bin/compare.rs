//! `compare [--seed S] [--calls C] [--malformed K] [--script FILE] [--oracle-fault NAME] PROGRAM`: the Rust and PROGRAM on
//! the same scripts, byte by byte. Ends with status 1 at the first difference, of which it prints the script. With a fault in
//! the oracle, in its generator or in its reading of an entry's state, of midpoint, of W8's limit or of ladders, it must.

use std::process::ExitCode;
use std::time::Instant;

use oracle::compare::{self, Outcome};
use oracle::generate::malformed;
use oracle::generate::stream::Stream;
use oracle::{entries, history, ladder, midpoint, sections};

const USAGE: &str =
    "usage: compare [--seed S] [--calls C] [--malformed K] [--script FILE] [--oracle-fault NAME] PROGRAM";

struct Words {
    seed: u64,
    calls: u64,
    malformed: Option<usize>,
    script: Option<String>,
    program: String,
}

fn words() -> Option<Words> {
    let mut w = Words {
        seed: 1,
        calls: 100_000,
        malformed: None,
        script: None,
        program: String::new(),
    };
    let mut given = std::env::args().skip(1);
    while let Some(word) = given.next() {
        match word.as_str() {
            "--seed" => w.seed = given.next()?.parse().ok()?,
            "--calls" => w.calls = given.next()?.parse().ok()?,
            "--malformed" => w.malformed = Some(given.next()?.parse().ok()?),
            "--script" => w.script = Some(given.next()?),
            "--oracle-fault" => make_faulty(&given.next()?)?,
            _ if w.program.is_empty() && !word.starts_with('-') => w.program = word,
            _ => return None,
        }
    }
    (!w.program.is_empty()).then_some(w)
}

fn make_faulty(word: &str) -> Option<()> {
    if word == "generator" {
        fastrand::make_faulty();
        return Some(());
    }
    midpoint::CHOSEN
        .choose(&midpoint::FAULTS, word)
        .or_else(|| entries::CHOSEN.choose(&entries::FAULTS, word))
        .or_else(|| ladder::CHOSEN.choose(&ladder::FAULTS, word))
        .or_else(|| history::CHOSEN.choose(&history::FAULTS, word))
}

fn main() -> ExitCode {
    let Some(w) = words() else {
        eprintln!("{USAGE}");
        return ExitCode::from(2);
    };
    let began = Instant::now();
    let outcome = if let Some(random) = w.malformed {
        compare::one_by_one(&w.program, malformed::scripts(w.seed, random))
    } else if let Some(file) = &w.script {
        match std::fs::read(file) {
            Ok(text) => compare::in_one_run(&w.program, sections::of(&text).into_iter()),
            Err(e) => {
                eprintln!("compare: {file}: {e}");
                return ExitCode::from(2);
            }
        }
    } else {
        compare::in_one_run(&w.program, Stream::new(w.seed, w.calls))
    };
    let totals = match outcome {
        Outcome::Same(totals) => totals,
        Outcome::Differs(report) => {
            println!("{report}");
            println!("seed {}: DIFFERENT", w.seed);
            return ExitCode::from(1);
        }
        Outcome::Failed(why) => {
            eprintln!("compare: {why}");
            return ExitCode::from(2);
        }
    };
    if w.malformed.is_some() {
        println!(
            "seed {}: {} scripts at the edge of the language, {} of them malformed: the same as the oracle's reading of it",
            w.seed, totals.scripts, totals.malformed
        );
        return ExitCode::SUCCESS;
    }
    print!("{totals}");
    println!("time: {:.1} s", began.elapsed().as_secs_f64());
    let c = &totals.counts;
    println!(
        "seed {}: {} sample calls ({} behind a restart) and {} generations closed: the same as the Rust's, {} and {} of them \
         under midpoint and {} and {} with a ladder, with document 02's reading of these in the Rust; {} refusals: the same \
         as the tables'",
        w.seed,
        c.calls,
        c.restarted,
        c.closings,
        c.midpoint,
        c.closings_midpoint,
        c.laddered,
        c.closings_ladder,
        c.refused.iter().sum::<u64>()
    );
    ExitCode::SUCCESS
}
