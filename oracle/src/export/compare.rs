//! Runs the program `tells` and the second reader on the same exports and compares what they write.

use std::fmt;

use super::{Entry, Reader, Refusal, answer};
use crate::compare::found;
use crate::shrink;

/// An export that is printed is cut after so many bytes.
const MOST_SHOWN: usize = 400;

/// What a comparison came to.
pub enum Outcome {
    Same(Totals),
    Differs(Report),
    Failed(String),
}

/// What was compared. An export is a run of the program.
#[derive(Clone, Debug, Default, PartialEq)]
pub struct Totals {
    pub exports: u64,
    pub values: u64,
    /// Of the values.
    pub points: u64,
    pub minuses: u64,
    pub zeros: u64,
    /// Of the exports.
    pub empty: u64,
    pub malformed: u64,
    pub short: u64,
    pub too_long: u64,
}

impl Totals {
    /// Counts one export and what was read of it.
    pub fn add(&mut self, export: &[u8], read: &Result<Vec<Entry>, Refusal>) {
        self.exports += 1;
        match read {
            Ok(entries) => {
                // A line that was accepted has at most one point, and at most one minus.
                let signs = |sign| export.iter().filter(|&&b| b == sign).count() as u64;
                self.values += entries.len() as u64;
                self.points += signs(b'.');
                self.minuses += signs(b'-');
                self.zeros += entries.iter().filter(|e| e.value == 0.0).count() as u64;
                self.empty += u64::from(entries.is_empty());
            }
            Err(Refusal::Malformed(_)) => self.malformed += 1,
            Err(Refusal::Short) => self.short += 1,
            Err(Refusal::TooLong) => self.too_long += 1,
        }
    }
}

impl fmt::Display for Totals {
    fn fmt(&self, f: &mut fmt::Formatter<'_>) -> fmt::Result {
        write!(
            f,
            "{} values of exports read by tells as by Rust's own parser ({} with a point, {} with a minus, {} zeros), \
             {} exports refused by 14 at the line it says, {} by 15, {} too long, {} of no line: none different",
            self.values, self.points, self.minuses, self.zeros, self.malformed, self.short, self.too_long, self.empty
        )
    }
}

/// The first difference.
pub struct Report {
    /// The export, as small as it was made.
    pub export: Vec<u8>,
    pub expected: String,
    pub found: String,
}

impl fmt::Display for Report {
    fn fmt(&self, f: &mut fmt::Formatter<'_>) -> fmt::Result {
        let lines = shrink::lines(&self.export).len();
        let shown = &self.export[..self.export.len().min(MOST_SHOWN)];
        let cut = if shown.len() < self.export.len() { " .." } else { "" };
        let words = if lines == 1 { "line" } else { "lines" };
        writeln!(f, "A difference, in an export of {lines} {words}:\n")?;
        writeln!(f, "b\"{}\"{cut}\n", shown.escape_ascii())?;
        writeln!(f, "the second reader: {}", self.expected)?;
        write!(f, "the program: {}", self.found)
    }
}

/// Each export through a process of its own, up to the first difference.
pub fn each(program: &str, reader: Reader, exports: impl Iterator<Item = Vec<u8>>) -> Outcome {
    let mut totals = Totals::default();
    for export in exports {
        let read = reader.read(&export);
        match found(program, &export) {
            Ok(found) if found == answer(&read) => totals.add(&export, &read),
            Ok(_) => return Outcome::Differs(report(program, reader, &export)),
            Err(e) => return Outcome::Failed(format!("{program}: {e}")),
        }
    }
    Outcome::Same(totals)
}

/// Of an export that is answered otherwise lines are left out, and then bytes. A fault's report is not read: it is not
/// made smaller.
fn report(program: &str, reader: Reader, export: &[u8]) -> Report {
    let differs = |rest: &[u8]| found(program, rest).is_ok_and(|found| found != answer(&reader.read(rest)));
    let mut small = export.to_vec();
    if reader.fault.is_none() {
        small = shrink::fewer(shrink::lines(&small), differs);
        if small.len() <= MOST_SHOWN {
            small = shrink::fewer(small.chunks(1).collect(), differs);
        }
    }
    let expected = answer(&reader.read(&small));
    let found = found(program, &small).unwrap_or_default();
    let (expected, found) = first_different(&expected, &found);
    Report {
        export: small,
        expected,
        found,
    }
}

/// The first line that is another in the two.
fn first_different(a: &[u8], b: &[u8]) -> (String, String) {
    let (a, b) = (shrink::lines(a), shrink::lines(b));
    let at = a.iter().zip(&b).take_while(|(a, b)| a == b).count();
    let shown = |lines: &[&[u8]]| match lines.get(at) {
        Some(line) => line.escape_ascii().to_string(),
        None => "[nothing more]".to_owned(),
    };
    (shown(&a), shown(&b))
}
