//! `exports [--seed S] [--sound K] [--damaged K] [--fault NAME] PROGRAM`: exports of the metrics collector through PROGRAM
//! and through the second reader, byte by byte. Ends with status 1 at the first difference, of which it prints a small
//! export. With a fault in the second reader it must.

use std::process::ExitCode;

use oracle::export::compare::{self, Outcome};
use oracle::export::{FAULTS, Reader};
use oracle::faults::named;
use oracle::generate::exports;

const USAGE: &str = "usage: exports [--seed S] [--sound K] [--damaged K] [--fault NAME] PROGRAM";

struct Words {
    seed: u64,
    sound: usize,
    damaged: usize,
    reader: Reader,
    program: String,
}

fn words() -> Option<Words> {
    let mut w = Words {
        seed: 1,
        sound: 200,
        damaged: 600,
        reader: Reader::default(),
        program: String::new(),
    };
    let mut given = std::env::args().skip(1);
    while let Some(word) = given.next() {
        match word.as_str() {
            "--seed" => w.seed = given.next()?.parse().ok()?,
            "--sound" => w.sound = given.next()?.parse().ok()?,
            "--damaged" => w.damaged = given.next()?.parse().ok()?,
            "--fault" => w.reader.fault = Some(named(&FAULTS, &given.next()?)?),
            _ if w.program.is_empty() && !word.starts_with('-') => w.program = word,
            _ => return None,
        }
    }
    (!w.program.is_empty()).then_some(w)
}

fn main() -> ExitCode {
    let Some(w) = words() else {
        eprintln!("{USAGE}");
        return ExitCode::from(2);
    };
    match compare::each(&w.program, w.reader, exports::all(w.seed, w.sound, w.damaged)) {
        Outcome::Same(totals) => {
            println!("seed {}: {totals}", w.seed);
            ExitCode::SUCCESS
        }
        Outcome::Differs(report) => {
            println!("{report}\n");
            println!("seed {}: DIFFERENT", w.seed);
            ExitCode::from(1)
        }
        Outcome::Failed(why) => {
            eprintln!("exports: {why}");
            ExitCode::from(2)
        }
    }
}
