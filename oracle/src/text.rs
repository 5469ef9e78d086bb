//! How numbers are written in scripts and answers.

use crate::distribution::Distribution;
use crate::midpoint::BoundsRule;
use crate::sampler::de::DEStrategy;
use crate::script::SetUp;

/// Whole numbers are decimal.
pub fn whole(out: &mut Vec<u8>, number: u64) {
    let mut digits = [0u8; 20];
    let mut at = digits.len();
    let mut rest = number;
    loop {
        at -= 1;
        digits[at] = b'0' + (rest % 10) as u8;
        rest /= 10;
        if rest == 0 {
            break;
        }
    }
    out.extend_from_slice(&digits[at..]);
}

/// Signed ones with a minus in front where they are below 0.
pub fn signed(out: &mut Vec<u8>, number: i64) {
    if number < 0 {
        out.push(b'-');
    }
    whole(out, number.unsigned_abs());
}

const DIGITS: &[u8; 16] = b"0123456789abcdef";

/// Two hexadecimal digits a byte, low case.
pub fn hex(out: &mut Vec<u8>, bytes: &[u8]) {
    for &b in bytes {
        out.push(DIGITS[usize::from(b >> 4)]);
        out.push(DIGITS[usize::from(b & 15)]);
    }
}

/// 16 hexadecimal digits, low case.
pub fn pattern(out: &mut Vec<u8>, word: u64) {
    let mut digits = [0u8; 16];
    for (i, d) in digits.iter_mut().enumerate() {
        *d = DIGITS[(word >> (60 - 4 * i) & 15) as usize];
    }
    out.extend_from_slice(&digits);
}

/// A double is its bit pattern.
pub fn double(out: &mut Vec<u8>, x: f64) {
    pattern(out, x.to_bits());
}

/// A `new` line. With some seeds clamp has its word, which changes nothing.
pub fn set_up(out: &mut Vec<u8>, setup: &SetUp) {
    out.extend_from_slice(b"new ");
    double(out, setup.f);
    out.push(b' ');
    double(out, setup.cr);
    out.extend_from_slice(match setup.strategy {
        DEStrategy::Rand1 => b" rand1 ",
        DEStrategy::Best1 => b" best1 ",
        DEStrategy::CurrentToBest1 => b" current-to-best1 ",
    });
    match setup.size {
        Some(size) => whole(out, size),
        None => out.push(b'-'),
    }
    out.push(b' ');
    whole(out, setup.seed);
    out.extend_from_slice(match setup.rule {
        BoundsRule::Clamp if setup.seed % 8 != 7 => b"",
        BoundsRule::Clamp => b" clamp",
        BoundsRule::Midpoint => b" midpoint",
    });
    out.push(b'\n');
}

/// The words of a sample line that name a distribution.
pub fn distribution(out: &mut Vec<u8>, d: &Distribution) {
    let scale = |log: bool| if log { " log " } else { " lin " }.as_bytes();
    match d {
        Distribution::Float(d) => {
            out.extend_from_slice(b"float ");
            double(out, d.low);
            out.push(b' ');
            double(out, d.high);
            out.extend_from_slice(scale(d.log_scale));
            match d.step {
                Some(step) => double(out, step),
                None => out.push(b'-'),
            }
        }
        Distribution::Int(d) => {
            out.extend_from_slice(b"int ");
            signed(out, d.low);
            out.push(b' ');
            signed(out, d.high);
            out.extend_from_slice(scale(d.log_scale));
            match d.step {
                Some(step) => signed(out, step),
                None => out.push(b'-'),
            }
        }
        Distribution::Categorical(d) => {
            out.extend_from_slice(b"choice ");
            whole(out, d.n_choices as u64);
        }
    }
}
