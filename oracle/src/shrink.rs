//! Makes a script, or an export, that shows a difference smaller.

use std::time::{Duration, Instant};

use crate::compare::{expected, found};
use crate::driver::Driver;

/// Runs of the program, and time, that may be spent.
const MOST_RUNS: usize = 2_000;
const MOST_TIME: Duration = Duration::from_secs(20);

/// A script with lines left out, while the oracle and the program still differ.
pub fn smaller(program: &str, script: &[u8]) -> Vec<u8> {
    fewer(lines(script), |rest| differs(program, rest))
}

/// The lines of a text, each with its line feed.
pub fn lines(text: &[u8]) -> Vec<&[u8]> {
    text.split_inclusive(|&b| b == b'\n').collect()
}

/// Leaves out runs of pieces, long ones first, while what is left still differs.
pub fn fewer(mut pieces: Vec<&[u8]>, differs: impl Fn(&[u8]) -> bool) -> Vec<u8> {
    let began = Instant::now();
    let mut length = pieces.len() / 2;
    let mut runs = 0;
    while length > 0 {
        let mut at = 0;
        while at < pieces.len() {
            if runs == MOST_RUNS || began.elapsed() > MOST_TIME {
                return pieces.concat();
            }
            runs += 1;
            let end = (at + length).min(pieces.len());
            let rest = [&pieces[..at], &pieces[end..]].concat();
            if differs(&rest.concat()) {
                pieces = rest;
            } else {
                at = end;
            }
        }
        length /= 2;
    }
    pieces.concat()
}

/// Both run to the script's end, and not alike; a script that is malformed for both shows nothing new.
fn differs(program: &str, script: &[u8]) -> bool {
    let expected = expected(&mut Driver::default(), script);
    found(program, script).is_ok_and(|found| found != expected)
}
