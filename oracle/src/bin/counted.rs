//! `counted`: reads a campaign as a script on standard input and prints each counted result, with the number by which it
//! can be judged (docs/FINDINGS.md).

use std::io::{self, Read, Write};
use std::process::ExitCode;

fn main() -> ExitCode {
    match run() {
        Ok(true) => ExitCode::SUCCESS,
        Ok(false) => {
            eprintln!("counted: the script is malformed");
            ExitCode::FAILURE
        }
        Err(e) => {
            eprintln!("counted: {e}");
            ExitCode::FAILURE
        }
    }
}

fn run() -> io::Result<bool> {
    let mut script = Vec::new();
    io::stdin().read_to_end(&mut script)?;
    let Ok(all) = oracle::counted::counted(&script) else {
        return Ok(false);
    };
    let mut out = io::stdout().lock();
    for result in all {
        writeln!(out, "{result}")?;
    }
    Ok(true)
}
