//! What is wrong in a line of a metrics export. The library has refused the line; here it is only described.

use std::error::Error;
use std::fmt;

/// What is wrong in a malformed line. Of several things one is named: a missing line feed, since the line is cut off
/// then, a missing comma, what is wrong in the trial number, and last in the value; in both of these a byte that is out
/// of place before too many digits.
#[non_exhaustive]
#[derive(Clone, Copy, Debug, PartialEq, Eq, Hash)]
pub enum ExportFault {
    /// The last line does not end in a line feed.
    NoLineFeed,
    /// Nothing stands before the line feed.
    EmptyLine,
    /// There is no comma.
    NoComma,
    /// Nothing stands before the comma.
    NoNumber,
    /// This byte of the trial number is no digit.
    NumberByte(u8),
    /// The trial number has so many digits, over 20.
    NumberDigits(usize),
    /// The trial number is over `u64::MAX`.
    LargeNumber,
    /// Nothing stands behind the comma.
    NoValue,
    /// Nothing stands behind the value's minus.
    NoDigit,
    /// This byte of the value is no digit, minus, point or comma.
    ValueByte(u8),
    /// A comma stands in the value.
    SecondComma,
    /// A minus stands in the value, and not in front.
    InnerMinus,
    /// The value has a second point.
    SecondPoint,
    /// The value's point has no digit before it.
    PointFirst,
    /// The value's point has no digit behind it.
    PointLast,
    /// The value has so many digits, over 15.
    ValueDigits(usize),
    /// The library refused the line, and this crate finds nothing wrong in it: a fault of this crate.
    Unexplained,
}

/// A byte, with its name where it has one.
struct Named(u8);

impl fmt::Display for Named {
    fn fmt(&self, f: &mut fmt::Formatter<'_>) -> fmt::Result {
        write!(f, "byte {:#04x}", self.0)?;
        match self.0 {
            b'\0' => write!(f, " (zero)"),
            b'\t' => write!(f, " (tab)"),
            b'\r' => write!(f, " (carriage return)"),
            b' ' => write!(f, " (space)"),
            byte if byte.is_ascii_graphic() => write!(f, " ({})", char::from(byte)),
            _ => Ok(()),
        }
    }
}

impl fmt::Display for ExportFault {
    fn fmt(&self, f: &mut fmt::Formatter<'_>) -> fmt::Result {
        match self {
            ExportFault::NoLineFeed => write!(f, "no line feed at the end"),
            ExportFault::EmptyLine => write!(f, "the line is empty"),
            ExportFault::NoComma => write!(f, "no comma"),
            ExportFault::NoNumber => write!(f, "no trial number before the comma"),
            ExportFault::NumberByte(byte) => write!(f, "{} in the trial number", Named(*byte)),
            ExportFault::NumberDigits(n) => write!(f, "{n} digits in the trial number, 20 at most"),
            ExportFault::LargeNumber => write!(f, "the trial number is over {}", u64::MAX),
            ExportFault::NoValue => write!(f, "no value behind the comma"),
            ExportFault::NoDigit => write!(f, "a minus with no digit behind it"),
            ExportFault::ValueByte(byte) => write!(f, "{} in the value", Named(*byte)),
            ExportFault::SecondComma => write!(f, "a second comma"),
            ExportFault::InnerMinus => write!(f, "a minus that is not in front of the value"),
            ExportFault::SecondPoint => write!(f, "a second point"),
            ExportFault::PointFirst => write!(f, "a point with no digit before it"),
            ExportFault::PointLast => write!(f, "a point with no digit behind it"),
            ExportFault::ValueDigits(n) => write!(f, "{n} digits in the value, 15 at most"),
            ExportFault::Unexplained => write!(f, "malformed, and nothing wrong is found in it"),
        }
    }
}

impl Error for ExportFault {}

/// What is wrong in the line of this number, counted from 1.
pub fn in_line(text: &[u8], number: usize) -> ExportFault {
    let mut lines = text.split_inclusive(|byte| *byte == b'\n');
    let Some(line) = number.checked_sub(1).and_then(|before| lines.nth(before)) else {
        return ExportFault::Unexplained;
    };
    let Some(line) = line.strip_suffix(b"\n") else {
        return ExportFault::NoLineFeed;
    };
    if line.is_empty() {
        return ExportFault::EmptyLine;
    }
    let Some(comma) = line.iter().position(|byte| *byte == b',') else {
        return ExportFault::NoComma;
    };
    in_number(&line[..comma])
        .or_else(|| in_value(&line[comma + 1..]))
        .unwrap_or(ExportFault::Unexplained)
}

fn in_number(number: &[u8]) -> Option<ExportFault> {
    if number.is_empty() {
        return Some(ExportFault::NoNumber);
    }
    if let Some(byte) = number.iter().find(|byte| !byte.is_ascii_digit()) {
        return Some(ExportFault::NumberByte(*byte));
    }
    if number.len() > 20 {
        return Some(ExportFault::NumberDigits(number.len()));
    }
    let spelt = number
        .iter()
        .fold(0, |spelt, digit| 10 * spelt + u128::from(digit - b'0'));
    (spelt > u128::from(u64::MAX)).then_some(ExportFault::LargeNumber)
}

fn in_value(value: &[u8]) -> Option<ExportFault> {
    if value.is_empty() {
        return Some(ExportFault::NoValue);
    }
    let unsigned = value.strip_prefix(b"-").unwrap_or(value);
    if unsigned.is_empty() {
        return Some(ExportFault::NoDigit);
    }
    let (mut digits, mut pointed) = (0, false);
    for byte in unsigned {
        match byte {
            b'0'..=b'9' => digits += 1,
            b'.' if pointed => return Some(ExportFault::SecondPoint),
            b'.' if digits == 0 => return Some(ExportFault::PointFirst),
            b'.' => pointed = true,
            b',' => return Some(ExportFault::SecondComma),
            b'-' => return Some(ExportFault::InnerMinus),
            other => return Some(ExportFault::ValueByte(*other)),
        }
    }
    if unsigned.ends_with(b".") {
        return Some(ExportFault::PointLast);
    }
    (digits > 15).then_some(ExportFault::ValueDigits(digits))
}

#[cfg(test)]
mod tests {
    use super::*;

    /// Of a good line nothing is made up, and of one that is not there either.
    #[test]
    fn nothing_wrong_is_said_so() {
        for (text, line) in [(&b"1,2\n"[..], 1), (b"1,2\n", 0), (b"1,2\n", 2), (b"", 1)] {
            assert_eq!(in_line(text, line), ExportFault::Unexplained);
        }
    }
}
