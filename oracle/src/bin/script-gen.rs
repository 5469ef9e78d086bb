//! `script-gen SEED CALLS`: prints scripts with at least so many sample lines, and on standard error what was aimed
//! at. The same words print the same scripts.

use std::io::{self, BufWriter, Write};
use std::process::ExitCode;

use oracle::generate::stream::Stream;

fn main() -> ExitCode {
    let words: Vec<String> = std::env::args().skip(1).collect();
    let [Ok(seed), Ok(calls)] = [0, 1].map(|i| words.get(i).map_or("", |w| w).parse::<u64>()) else {
        eprintln!("usage: script-gen SEED CALLS");
        return ExitCode::from(2);
    };
    match print(Stream::new(seed, calls)) {
        Ok(()) => ExitCode::SUCCESS,
        Err(e) => {
            eprintln!("script-gen: {e}");
            ExitCode::FAILURE
        }
    }
}

fn print(mut stream: Stream) -> io::Result<()> {
    let mut out = BufWriter::with_capacity(1 << 16, io::stdout().lock());
    for section in stream.by_ref() {
        out.write_all(&section)?;
    }
    out.flush()?;
    for (name, aim) in &stream.aims {
        eprintln!(
            "{:>8} sections {:>9} calls {:>8} closings  {name}",
            aim.sections, aim.calls, aim.closings
        );
    }
    Ok(())
}
