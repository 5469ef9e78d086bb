//! Reads a script on standard input and writes the Rust's answers, as the program `replay` does.

use std::io::{self, BufWriter};
use std::process::ExitCode;

fn main() -> ExitCode {
    let mut driver = oracle::driver::Driver::default();
    let output = BufWriter::with_capacity(1 << 16, io::stdout().lock());
    match driver.run(io::stdin().lock(), output) {
        Ok(()) => ExitCode::SUCCESS,
        Err(e) => {
            eprintln!("oracle: {e}");
            ExitCode::FAILURE
        }
    }
}
