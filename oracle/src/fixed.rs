//! The fixed list: a short script that meets every branch, with the Rust's answers, and the refusals by hand.

use crate::compare::expected;
use crate::counts::Counts;
use crate::driver::Driver;
use crate::generate::exhaustive;
use crate::generate::stream::{SHORT_FROM, Stream};

/// The parts by hand. A comment `# by hand: refused K: WHY` says what the line after it must answer.
const BY_HAND: [&str; 5] = [
    include_str!("../refusals.script"),
    include_str!("../restarts.script"),
    include_str!("../midpoint.script"),
    include_str!("../extremes.script"),
    include_str!("../ladder.script"),
];

/// Before anything else: no file has been kept yet.
const NO_FILE: &str = "# by hand: refused 12: no file has been kept yet\nrestore\nbytes\n";

/// Each branch is met so often, by sections chosen for it.
const OFTEN: u64 = 2;

/// Sample calls that are answered, at least.
pub const LEAST: u64 = 3_000;

/// The script and its answers.
pub struct Fixed {
    pub script: Vec<u8>,
    pub answers: Vec<u8>,
    pub counts: Counts,
}

/// A section, and what it meets when it is run alone.
struct Entry {
    script: Vec<u8>,
    counts: Counts,
    cost: usize,
    chosen: bool,
}

impl Entry {
    fn of(script: Vec<u8>) -> Self {
        let mut driver = Driver::default();
        let answers = expected(&mut driver, &script);
        Self {
            cost: script.len() + answers.len(),
            counts: driver.counts,
            script,
            chosen: false,
        }
    }
}

/// Makes the list; says what is wrong where a branch is not met or a refusal is not the one by hand.
pub fn make(seed: u64) -> Result<Fixed, String> {
    // Many to choose from, each below the number of calls that brings the exhaustive family with it.
    let random = (0..6).flat_map(|k| Stream::new(seed + k, SHORT_FROM - 1));
    let cases = exhaustive::short();
    let short = cases
        .iter()
        .enumerate()
        .map(|(i, case)| case.section(seed + i as u64).text);
    // Refusals are the part by hand alone.
    let mut pool: Vec<Entry> = random.chain(short).map(Entry::of).collect();
    pool.retain(|entry| entry.counts.refused == [0; 14]);
    choose(&mut pool);
    let mut script = format!(
        "# Made by the oracle (docs/ORACLE.md): the answers up to the mark below are the Rust's, kept files by docs/SAVED.md, what midpoint makes of an entry and what ladders are by document 02. Seed {seed}.\n"
    )
    .into_bytes();
    by_hand_is_so(NO_FILE)?;
    script.extend_from_slice(NO_FILE.as_bytes());
    for entry in pool.iter().filter(|entry| entry.chosen) {
        script.extend_from_slice(&entry.script);
    }
    script.extend_from_slice(
        b"# From here on by hand: the refusals are those of document 01's table and of docs/SAVED.md, the other answers as above.\n",
    );
    for part in BY_HAND {
        by_hand_is_so(part)?;
        script.extend_from_slice(part.as_bytes());
    }
    let mut driver = Driver::default();
    let answers = expected(&mut driver, &script);
    let counts = driver.counts;
    if let Some((label, _)) = counts.rows().iter().find(|(_, count)| *count == 0) {
        return Err(format!("never met: {label}"));
    }
    if let Some(k) = (1..=10).chain(12..=13).find(|&k| counts.refused[k] == 0) {
        return Err(format!("never met: refusal {k}"));
    }
    if counts.calls < LEAST {
        return Err(format!("{} answers", counts.calls));
    }
    Ok(Fixed {
        script,
        answers,
        counts,
    })
}

/// First the cheapest sections for what is not met yet, then cheap ones until there are enough answers.
fn choose(pool: &mut [Entry]) {
    let mut met = Counts::default();
    loop {
        let lacking: Vec<usize> = (0..met.rows().len()).filter(|&i| met.rows()[i].1 < OFTEN).collect();
        let gain = |entry: &Entry| {
            let rows = entry.counts.rows();
            let news = lacking.iter().filter(|&&i| rows[i].1 > 0).count();
            if entry.chosen {
                0.0
            } else {
                news as f64 / entry.cost as f64
            }
        };
        let best = pool.iter_mut().max_by(|a, b| gain(a).total_cmp(&gain(b)));
        match best {
            Some(entry) if gain(entry) > 0.0 => {
                entry.chosen = true;
                met.add(&entry.counts);
            }
            _ => break,
        }
    }
    let mut rest: Vec<&mut Entry> = pool.iter_mut().filter(|entry| !entry.chosen).collect();
    let stride = rest.len() / 97;
    for entry in rest.iter_mut().step_by(stride).filter(|entry| entry.cost < 12_000) {
        entry.chosen = true;
        met.add(&entry.counts);
    }
    // Where that is not enough: the sections with the most answers for their length.
    rest.sort_by_key(|entry| entry.cost as u64 * 1_000 / entry.counts.calls.max(1));
    for entry in rest.iter_mut().filter(|entry| !entry.chosen) {
        if met.calls >= LEAST {
            return;
        }
        entry.chosen = true;
        met.add(&entry.counts);
    }
}

/// The answers of a script that stands by itself, its refusals named by hand in its comments.
pub fn answers(script: &str) -> Result<Vec<u8>, String> {
    by_hand_is_so(script)?;
    Ok(expected(&mut Driver::default(), script.as_bytes()))
}

/// The judge's refusals are those that the script names by hand, and it gives no other.
fn by_hand_is_so(script: &str) -> Result<(), String> {
    let mut driver = Driver::default();
    let mut said: Option<&str> = None;
    for line in script.split_inclusive('\n') {
        if let Some(words) = line.strip_prefix("# by hand: ") {
            said = words.split(": ").next();
            continue;
        }
        let mut out = Vec::new();
        if driver.raw_line(line.as_bytes(), &mut out).is_err() {
            return Err(format!("malformed: {line}"));
        }
        let answer = String::from_utf8_lossy(&out);
        let refused = answer.starts_with("refused").then_some(answer.trim_end());
        if refused != said {
            return Err(format!("by hand {said:?}, the judge {answer:?}: {line}"));
        }
        said = None;
    }
    Ok(())
}

#[cfg(test)]
mod tests {
    #[test]
    fn the_list_can_be_made() {
        for part in super::BY_HAND {
            super::by_hand_is_so(part).unwrap();
        }
    }
}
