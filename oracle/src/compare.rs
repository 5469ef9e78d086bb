//! Runs the oracle and a program on the same scripts and compares what they write.
//!
//! Three threads: one makes sections and asks the oracle, one feeds the program, one reads it; the caller's compares.
//! What is expected goes into an unbounded channel before its script goes to the program, so nobody waits in a ring.

use std::fmt;
use std::io::{Read, Write};
use std::process::{Child, Command, Stdio};
use std::sync::Arc;
use std::sync::mpsc::{Receiver, RecvTimeoutError, channel, sync_channel};
use std::thread;
use std::time::Duration;

use crate::counts::Counts;
use crate::driver::Driver;
use crate::shrink;

/// A program that says nothing for so long has hung.
const PATIENCE: Duration = Duration::from_secs(300);

/// What a comparison came to.
pub enum Outcome {
    Same(Box<Totals>),
    Differs(Report),
    Failed(String),
}

/// What was compared.
#[derive(Default)]
pub struct Totals {
    pub scripts: u64,
    /// Those that ended with a malformed line, where each is a run of its own.
    pub malformed: u64,
    pub script_bytes: u64,
    pub answer_bytes: u64,
    pub counts: Counts,
}

impl fmt::Display for Totals {
    fn fmt(&self, f: &mut fmt::Formatter<'_>) -> fmt::Result {
        writeln!(
            f,
            "{:>12}  sections, {} bytes of script, {} bytes of answers",
            self.scripts, self.script_bytes, self.answer_bytes
        )?;
        for (label, count) in self.counts.rows() {
            writeln!(f, "{count:>12}  {label}")?;
        }
        for (label, size) in [
            ("entry", self.counts.largest_entry),
            ("mutant's entry", self.counts.largest_mutant),
        ] {
            writeln!(f, "{size:>12.3e}  the size of the largest {label}")?;
        }
        for (k, count) in self.counts.refused.iter().enumerate().filter(|(_, c)| **c > 0) {
            let by = if k < 12 { "the table" } else { "docs/SAVED.md" };
            writeln!(f, "{count:>12}  refusal {k} (by {by}, not by the Rust)")?;
        }
        Ok(())
    }
}

/// The first difference.
pub struct Report {
    /// The section's script up to the line that was answered otherwise.
    pub prefix: Vec<u8>,
    pub expected: String,
    pub found: String,
    /// A smaller script that differs too.
    pub smaller: Vec<u8>,
}

impl fmt::Display for Report {
    fn fmt(&self, f: &mut fmt::Formatter<'_>) -> fmt::Result {
        let lines = self.prefix.iter().filter(|b| **b == b'\n').count();
        writeln!(f, "A difference at line {lines} of a section. The section up to it:\n")?;
        writeln!(f, "{}", String::from_utf8_lossy(&self.prefix))?;
        writeln!(f, "the oracle: {}", self.expected)?;
        writeln!(f, "the program: {}\n", self.found)?;
        writeln!(f, "With lines left out, while the two still differ:\n")?;
        write!(f, "{}", String::from_utf8_lossy(&self.smaller))
    }
}

/// What the oracle writes for a script, up to its end or its first malformed line.
pub fn expected(driver: &mut Driver, script: &[u8]) -> Vec<u8> {
    let mut out = Vec::new();
    for line in script.split_inclusive(|&b| b == b'\n') {
        if driver.raw_line(line, &mut out).is_err() {
            break;
        }
    }
    out
}

fn started(program: &str) -> std::io::Result<Child> {
    Command::new(program)
        .stdin(Stdio::piped())
        .stdout(Stdio::piped())
        .spawn()
}

/// What a program writes for a script. A program that stops reading early is no fault.
pub fn found(program: &str, script: &[u8]) -> std::io::Result<Vec<u8>> {
    let mut child = started(program)?;
    let mut input = child.stdin.take().expect("a pipe");
    let script = script.to_vec();
    let writer = thread::spawn(move || input.write_all(&script).is_ok());
    let mut output = Vec::new();
    child.stdout.take().expect("a pipe").read_to_end(&mut output)?;
    let status = child.wait()?;
    let _ = writer.join();
    if !status.success() {
        output.extend_from_slice(format!("[ended with {status}]\n").as_bytes());
    }
    Ok(output)
}

struct Sent {
    script: Arc<Vec<u8>>,
    expected: Vec<u8>,
}

/// Sections that each begin with `new`, through one process of the program.
pub fn in_one_run(program: &str, sections: impl Iterator<Item = Vec<u8>> + Send) -> Outcome {
    let mut child = match started(program) {
        Ok(child) => child,
        Err(e) => return Outcome::Failed(format!("{program}: {e}")),
    };
    let mut input = child.stdin.take().expect("a pipe");
    let mut output = child.stdout.take().expect("a pipe");
    let (promise, promised) = channel::<Sent>();
    let (feed, fed) = sync_channel::<Arc<Vec<u8>>>(64);
    let (say, said) = sync_channel::<Vec<u8>>(64);
    thread::spawn(move || {
        for script in fed {
            if input.write_all(&script).is_err() {
                return;
            }
        }
    });
    thread::spawn(move || {
        let mut buffer = vec![0; 1 << 16];
        while let Ok(count @ 1..) = output.read(&mut buffer) {
            if say.send(buffer[..count].to_vec()).is_err() {
                return;
            }
        }
    });
    thread::scope(|scope| {
        let maker = scope.spawn(move || {
            let mut driver = Driver::default();
            for script in sections {
                let script = Arc::new(script);
                let expected = expected(&mut driver, &script);
                let sent = Sent {
                    script: Arc::clone(&script),
                    expected,
                };
                if promise.send(sent).is_err() || feed.send(script).is_err() {
                    break;
                }
            }
            driver.counts
        });
        let compared = compared(program, promised, &said);
        // A program that is still running after a difference is of no use, and the feeder waits for it. Its pipe is still read, so
        // that it does not complain.
        if !matches!(compared, Outcome::Same(_)) {
            let _ = child.kill();
        }
        let status = child.wait();
        let counts = maker.join().expect("the oracle's thread");
        match (compared, status) {
            (Outcome::Same(mut totals), Ok(status)) if status.success() => {
                totals.counts = counts;
                Outcome::Same(totals)
            }
            (Outcome::Same(_), status) => Outcome::Failed(format!("{program} ended with {status:?}")),
            (other, _) => other,
        }
    })
}

fn compared(program: &str, promised: Receiver<Sent>, said: &Receiver<Vec<u8>>) -> Outcome {
    let mut totals = Totals::default();
    let mut ahead: Vec<u8> = Vec::new();
    for sent in promised {
        let want = sent.expected.len();
        while ahead.len() < want {
            match said.recv_timeout(PATIENCE) {
                Ok(more) => ahead.extend_from_slice(&more),
                Err(RecvTimeoutError::Disconnected) => break,
                Err(RecvTimeoutError::Timeout) => {
                    return Outcome::Failed(format!("{program} has said nothing for {PATIENCE:?}"));
                }
            }
            if !agree(&ahead, &sent.expected) {
                break;
            }
        }
        if ahead.len() < want || ahead[..want] != sent.expected {
            return Outcome::Differs(report(program, &sent.script, &sent.expected, &ahead));
        }
        ahead.drain(..want);
        totals.scripts += 1;
        totals.script_bytes += sent.script.len() as u64;
        totals.answer_bytes += want as u64;
    }
    // The script has ended; so must the program's answers.
    while let Ok(more) = said.recv_timeout(PATIENCE) {
        ahead.extend_from_slice(&more);
    }
    if ahead.is_empty() {
        return Outcome::Same(Box::new(totals));
    }
    Outcome::Failed(format!(
        "{program} writes on after the last answer: {}",
        String::from_utf8_lossy(line_at(&ahead, 0))
    ))
}

/// As far as both reach, they are the same.
fn agree(a: &[u8], b: &[u8]) -> bool {
    let both = a.len().min(b.len());
    a[..both] == b[..both]
}

/// Scripts that each are a run of their own, since a malformed line ends it.
pub fn one_by_one(program: &str, scripts: Vec<Vec<u8>>) -> Outcome {
    let mut totals = Totals::default();
    for script in scripts {
        let mut driver = Driver::default();
        let expected = expected(&mut driver, &script);
        let found = match found(program, &script) {
            Ok(found) => found,
            Err(e) => return Outcome::Failed(format!("{program}: {e}")),
        };
        if found != expected {
            return Outcome::Differs(report(program, &script, &expected, &found));
        }
        totals.scripts += 1;
        totals.malformed += u64::from(line_at(&expected, expected.len().saturating_sub(1)).starts_with(b"malformed"));
        totals.script_bytes += script.len() as u64;
        totals.answer_bytes += expected.len() as u64;
        totals.counts.add(&driver.counts);
    }
    Outcome::Same(Box::new(totals))
}

fn line_at(text: &[u8], at: usize) -> &[u8] {
    let from = text[..at].iter().rposition(|&b| b == b'\n').map_or(0, |i| i + 1);
    let to = text[at..]
        .iter()
        .position(|&b| b == b'\n')
        .map_or(text.len(), |i| at + i);
    &text[from..to]
}

fn report(program: &str, script: &[u8], expected: &[u8], found: &[u8]) -> Report {
    let same = expected.iter().zip(found).take_while(|(a, b)| a == b).count();
    let prefix = prefix(script, same);
    let shown = |text: &[u8]| {
        if same < text.len() {
            String::from_utf8_lossy(line_at(text, same)).into_owned()
        } else {
            "[nothing more]".to_owned()
        }
    };
    Report {
        expected: shown(expected),
        found: shown(found),
        smaller: shrink::smaller(program, &prefix),
        prefix,
    }
}

/// The lines of a script up to the one that is being answered at this byte of the answers.
fn prefix(script: &[u8], at: usize) -> Vec<u8> {
    let mut driver = Driver::default();
    let (mut lines, mut out) = (Vec::new(), Vec::new());
    for line in script.split_inclusive(|&b| b == b'\n') {
        lines.extend_from_slice(line);
        if driver.raw_line(line, &mut out).is_err() || out.len() > at {
            break;
        }
    }
    lines
}
