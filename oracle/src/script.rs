//! A line of a script in the language of the program `replay` (docs/SCRIPTS.md). Written from that page, not from the Rust.

use crate::distribution::{CategoricalDistribution, Distribution, FloatDistribution, IntDistribution};
use crate::history::{Entry, State};
use crate::midpoint::BoundsRule;
use crate::sampler::de::DEStrategy;

/// A line longer than this is malformed, a comment too.
pub const LONGEST_LINE: usize = 512;

/// A history with more entries than this is malformed.
pub const LONGEST_HISTORY: usize = 65_536;

/// What a line says.
#[derive(Clone, Debug)]
pub enum Command {
    Blank,
    New(SetUp),
    Clear,
    Tell(Entry),
    Sample { trial: u64, distribution: Distribution },
    Look,
    State,
    Save,
    Restore,
    File { length: u64 },
    Put { offset: u64, bytes: Vec<u8> },
    Bytes,
}

/// The words of a `new` line.
#[derive(Clone, Debug)]
pub struct SetUp {
    pub f: f64,
    pub cr: f64,
    pub strategy: DEStrategy,
    pub size: Option<u64>,
    pub seed: u64,
    pub rule: BoundsRule,
}

/// The line without its line feed; nothing where it is malformed.
pub fn parse(line: &[u8]) -> Option<Command> {
    if line.len() > LONGEST_LINE {
        return None;
    }
    if line.is_empty() || line[0] == b'#' {
        return Some(Command::Blank);
    }
    let mut words = [&line[..0]; 8];
    let mut count = 0;
    for word in line.split(|&b| b == b' ') {
        *words.get_mut(count)? = word;
        count += 1;
    }
    match &words[..count] {
        [b"new", f, cr, strategy, size, seed, rest @ ..] => Some(Command::New(SetUp {
            f: double(f)?,
            cr: double(cr)?,
            strategy: match *strategy {
                b"rand1" => DEStrategy::Rand1,
                b"best1" => DEStrategy::Best1,
                b"current-to-best1" => DEStrategy::CurrentToBest1,
                _ => return None,
            },
            size: optional(size, whole)?,
            seed: whole(seed)?,
            rule: rule(rest)?,
        })),
        [b"clear"] => Some(Command::Clear),
        [b"tell", trial, value, rest @ ..] => Some(Command::Tell(Entry {
            trial: whole(trial)?,
            value: double(value)?,
            state: state(rest)?,
        })),
        [b"sample", trial, rest @ ..] => Some(Command::Sample {
            trial: whole(trial)?,
            distribution: distribution(rest)?,
        }),
        [b"look"] => Some(Command::Look),
        [b"state"] => Some(Command::State),
        [b"save"] => Some(Command::Save),
        [b"restore"] => Some(Command::Restore),
        [b"file", length] => Some(Command::File { length: whole(length)? }),
        [b"put", offset, digits] => Some(Command::Put {
            offset: whole(offset)?,
            bytes: bytes(digits)?,
        }),
        [b"bytes"] => Some(Command::Bytes),
        _ => None,
    }
}

/// No word stands for clamp.
fn rule(words: &[&[u8]]) -> Option<BoundsRule> {
    match words {
        [] | [b"clamp"] => Some(BoundsRule::Clamp),
        [b"midpoint"] => Some(BoundsRule::Midpoint),
        _ => None,
    }
}

/// No word stands for complete.
fn state(words: &[&[u8]]) -> Option<State> {
    match words {
        [] | [b"complete"] => Some(State::Complete),
        [b"pruned"] => Some(State::Pruned),
        [b"failed"] => Some(State::Failed),
        _ => None,
    }
}

fn distribution(words: &[&[u8]]) -> Option<Distribution> {
    match words {
        [b"float", low, high, scale, step] => Some(Distribution::Float(FloatDistribution {
            low: double(low)?,
            high: double(high)?,
            log_scale: log(scale)?,
            step: optional(step, double)?,
        })),
        [b"int", low, high, scale, step] => Some(Distribution::Int(IntDistribution {
            low: signed(low)?,
            high: signed(high)?,
            log_scale: log(scale)?,
            step: optional(step, signed)?,
        })),
        [b"choice", count] => Some(Distribution::Categorical(CategoricalDistribution {
            n_choices: whole(count)? as usize,
        })),
        _ => None,
    }
}

fn log(word: &[u8]) -> Option<bool> {
    match word {
        b"lin" => Some(false),
        b"log" => Some(true),
        _ => None,
    }
}

/// `-` stands for nothing.
fn optional<T>(word: &[u8], read: fn(&[u8]) -> Option<T>) -> Option<Option<T>> {
    if word == b"-" {
        return Some(None);
    }
    read(word).map(Some)
}

/// Decimal, one digit or more, leading zeros allowed.
fn whole(word: &[u8]) -> Option<u64> {
    if word.is_empty() {
        return None;
    }
    word.iter().try_fold(0u64, |sum, &b| {
        let digit = b.is_ascii_digit().then(|| u64::from(b - b'0'))?;
        sum.checked_mul(10)?.checked_add(digit)
    })
}

fn signed(word: &[u8]) -> Option<i64> {
    match word {
        [b'-', digits @ ..] => {
            let size = whole(digits)?;
            (size <= 1 << 63).then(|| (size as i64).wrapping_neg())
        }
        _ => i64::try_from(whole(word)?).ok(),
    }
}

/// 16 hexadecimal digits, low case; any NaN pattern reads as NaN.
fn double(word: &[u8]) -> Option<f64> {
    if word.len() != 16 {
        return None;
    }
    let bits = word
        .iter()
        .try_fold(0u64, |bits, &b| Some(bits << 4 | u64::from(digit(b)?)))?;
    Some(f64::from_bits(bits))
}

/// Two hexadecimal digits a byte, low case; one byte at least.
fn bytes(word: &[u8]) -> Option<Vec<u8>> {
    if word.is_empty() || !word.len().is_multiple_of(2) {
        return None;
    }
    word.chunks(2)
        .map(|two| Some(digit(two[0])? << 4 | digit(two[1])?))
        .collect()
}

fn digit(b: u8) -> Option<u8> {
    match b {
        b'0'..=b'9' => Some(b - b'0'),
        b'a'..=b'f' => Some(b - b'a' + 10),
        _ => None,
    }
}

#[cfg(test)]
mod tests {
    use super::*;

    #[test]
    fn numbers_and_lines_at_their_edges() {
        let signed = |words: &str| match parse(format!("sample 1 int {words} lin -").as_bytes()) {
            Some(Command::Sample {
                distribution: Distribution::Int(d),
                ..
            }) => Some((d.low, d.high)),
            _ => None,
        };
        assert_eq!(
            signed("-9223372036854775808 9223372036854775807"),
            Some((i64::MIN, i64::MAX))
        );
        assert_eq!(signed("-9223372036854775809 0"), None);
        assert_eq!(signed("0 9223372036854775808"), None);
        assert_eq!(signed("-0 0007"), Some((0, 7)));
        assert_eq!(signed("-  1"), None);
        assert!(parse(&[b'#'; 512]).is_some());
        assert!(parse(&[b'#'; 513]).is_none());
        assert!(parse(b"look ").is_none());
    }

    #[test]
    fn the_bounds_rules() {
        let rule = |words: &str| {
            let line = format!("new 3fe0000000000000 3feccccccccccccd rand1 4 1{words}");
            match parse(line.as_bytes()) {
                Some(Command::New(setup)) => Some(setup.rule),
                _ => None,
            }
        };
        assert_eq!(rule(""), Some(BoundsRule::Clamp));
        assert_eq!(rule(" clamp"), Some(BoundsRule::Clamp));
        assert_eq!(rule(" midpoint"), Some(BoundsRule::Midpoint));
        for words in [
            " ",
            " Midpoint",
            " mid",
            " midpoint ",
            "  midpoint",
            " clamp midpoint",
            " 1",
        ] {
            assert_eq!(rule(words), None, "{words:?}");
        }
    }

    #[test]
    fn the_states_of_an_entry() {
        let state = |words: &str| match parse(format!("tell 7 3ff0000000000000{words}").as_bytes()) {
            Some(Command::Tell(entry)) => Some((entry.trial, entry.value, entry.state)),
            _ => None,
        };
        let told = |state| Some((7, 1.0, state));
        assert_eq!(state(""), told(State::Complete));
        assert_eq!(state(" complete"), told(State::Complete));
        assert_eq!(state(" pruned"), told(State::Pruned));
        assert_eq!(state(" failed"), told(State::Failed));
        for words in [" ", " Pruned", " fail", " failed ", "  failed", " failed failed", " 1"] {
            assert_eq!(state(words), None, "{words:?}");
        }
    }
}
