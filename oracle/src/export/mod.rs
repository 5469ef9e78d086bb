//! Exports of the metrics collector, a second reader of them, written from the request's text alone. A line is a trial
//! number, a comma, a value and a line feed, and nothing else; the double is the one that Rust's own parser gives.

pub mod compare;
#[cfg(test)]
mod tests;

use crate::text;

/// The entries of the history that the program lends.
pub const MOST_ENTRIES: usize = 65_536;

/// The longest line: 20 digits, a comma, a minus, 15 digits with a point, a line feed.
pub const LONGEST_LINE: usize = 39;

/// The program reads no more: past it, it cannot tell which refusal applies.
pub const LONGEST: usize = MOST_ENTRIES * LONGEST_LINE;

/// Digits of a trial number, and of a value.
const TRIAL_DIGITS: usize = 20;
const VALUE_DIGITS: usize = 15;

/// A line as it was read.
#[derive(Clone, Copy, Debug, PartialEq)]
pub struct Entry {
    pub trial: u64,
    pub value: f64,
}

/// Why there are no entries.
#[derive(Clone, Copy, Debug, PartialEq)]
pub enum Refusal {
    /// 14: the first malformed line, its number from 1.
    Malformed(usize),
    /// 15: the history is too short.
    Short,
    /// The program's own limit.
    TooLong,
}

/// One way in which the reader is wrong, to show that a comparison with it can fail.
#[derive(Clone, Copy, Debug, PartialEq)]
pub enum Fault {
    /// A value is its digits times a power of a tenth, rounded twice.
    Product,
    /// A value is cut to some 80 bits before it is rounded to 53: wrong only next to the middle between two doubles.
    Halves,
    /// 16 digits are accepted.
    Digits,
    /// A minus with zero gives zero.
    Zero,
    /// A trial number past 2^64 - 1 begins again at 0.
    Wrap,
    /// The last line needs no line feed.
    Feed,
    /// The history is judged too short before the lines past it are read.
    Order,
}

/// Each with the word that names it.
pub const FAULTS: [(&str, Fault); 7] = [
    ("product", Fault::Product),
    ("halves", Fault::Halves),
    ("digits", Fault::Digits),
    ("zero", Fault::Zero),
    ("wrap", Fault::Wrap),
    ("feed", Fault::Feed),
    ("order", Fault::Order),
];

/// The reader, with a fault or with none.
#[derive(Clone, Copy, Debug, Default)]
pub struct Reader {
    pub fault: Option<Fault>,
}

impl Reader {
    fn has(self, fault: Fault) -> bool {
        self.fault == Some(fault)
    }

    /// The entries in the file's order.
    pub fn read(self, export: &[u8]) -> Result<Vec<Entry>, Refusal> {
        if export.len() > LONGEST {
            return Err(Refusal::TooLong);
        }
        let mut entries = Vec::new();
        for (before, line) in export.split_inclusive(|&b| b == b'\n').enumerate() {
            if self.has(Fault::Order) && before == MOST_ENTRIES {
                return Err(Refusal::Short);
            }
            entries.push(self.line(line).ok_or(Refusal::Malformed(before + 1))?);
        }
        if entries.len() > MOST_ENTRIES {
            return Err(Refusal::Short);
        }
        Ok(entries)
    }

    /// A line with its line feed.
    fn line(self, line: &[u8]) -> Option<Entry> {
        let text = match line.strip_suffix(b"\n") {
            None if self.has(Fault::Feed) => line,
            stripped => stripped?,
        };
        let comma = text.iter().position(|&b| b == b',')?;
        Some(Entry {
            trial: self.trial(&text[..comma])?,
            value: self.value(&text[comma + 1..])?,
        })
    }

    fn trial(self, digits: &[u8]) -> Option<u64> {
        if digits.is_empty() || digits.len() > TRIAL_DIGITS || !digits.iter().all(u8::is_ascii_digit) {
            return None;
        }
        let number = whole(digits);
        if self.has(Fault::Wrap) {
            return Some(number as u64);
        }
        u64::try_from(number).ok()
    }

    /// Rust's parser accepts far more than an export may hold, so what it is given is judged first.
    fn value(self, text: &[u8]) -> Option<f64> {
        let unsigned = text.strip_prefix(b"-").unwrap_or(text);
        let digits: Vec<u8> = unsigned.iter().copied().filter(u8::is_ascii_digit).collect();
        // Nothing but digits, or one point more, with a digit on either side of it.
        let places = match (unsigned.len() - digits.len(), unsigned.iter().position(|&b| b == b'.')) {
            (0, None) => 0,
            (1, Some(at)) if at > 0 && at + 1 < unsigned.len() => unsigned.len() - at - 1,
            _ => return None,
        };
        let most = VALUE_DIGITS + usize::from(self.has(Fault::Digits));
        if digits.is_empty() || digits.len() > most {
            return None;
        }
        let value: f64 = std::str::from_utf8(text).ok()?.parse().ok()?;
        Some(match self.fault {
            Some(Fault::Product) => (whole(&digits) as f64 * 10f64.powi(-(places as i32))).copysign(value),
            Some(Fault::Halves) => {
                let number = whole(&digits);
                let shift = (number | 1).leading_zeros();
                let cut = (number << shift) / 10u128.pow(places as u32);
                (cut as f64 / 2f64.powi(shift as i32)).copysign(value)
            }
            Some(Fault::Zero) if value == 0.0 => 0.0,
            _ => value,
        })
    }
}

/// The number that some digits make, at most 20 of them.
fn whole(digits: &[u8]) -> u128 {
    digits.iter().fold(0, |n, d| n * 10 + u128::from(d - b'0'))
}

/// What the program `tells` is to write.
pub fn answer(read: &Result<Vec<Entry>, Refusal>) -> Vec<u8> {
    let mut out = Vec::new();
    match read {
        Ok(entries) => {
            for entry in entries {
                out.extend_from_slice(b"tell ");
                text::whole(&mut out, entry.trial);
                out.push(b' ');
                text::double(&mut out, entry.value);
                out.push(b'\n');
            }
        }
        Err(Refusal::Malformed(line)) => {
            out.extend_from_slice(b"refused 14 ");
            text::whole(&mut out, *line as u64);
            out.push(b'\n');
        }
        Err(Refusal::Short) => out.extend_from_slice(b"refused 15\n"),
        Err(Refusal::TooLong) => out.extend_from_slice(b"too long\n"),
    }
    out
}
