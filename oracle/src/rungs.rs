//! The rungs of a ladder, document 02, W9: "R(p) is the whole part of 2^(p/256), p from 0 to 7,936". NOT the Rust's, which
//! has none, nor from the table of the program that is compared: worked out here in whole numbers, without rounding.

use std::sync::OnceLock;

/// The last position.
pub const LAST: i64 = 7_936;

/// Positions from a number to its double.
const TO_DOUBLE: usize = 256;

/// R(p).
pub fn rung(position: i64) -> i64 {
    rungs()[position as usize]
}

/// How many positions have a rung below this number: they are the first ones, since R never falls.
pub fn below(number: i64) -> i64 {
    rungs().partition_point(|&rung| rung < number) as i64
}

/// Every R(p), in the order of p.
fn rungs() -> &'static [i64] {
    static RUNGS: OnceLock<Vec<i64>> = OnceLock::new();
    RUNGS.get_or_init(|| {
        // From 1 to just below 2.
        let mut rungs = vec![1; TO_DOUBLE];
        for p in TO_DOUBLE..=LAST as usize {
            // The double of a number from r to below r + 1 has the whole part 2r or 2r + 1.
            let odd = 2 * rungs[p - TO_DOUBLE] + 1;
            rungs.push(if is_at_most_root(odd, p) { odd } else { odd - 1 });
        }
        rungs
    })
}

/// Whether r is at most 2^(p/256): whether r^256 is at most 2^p.
fn is_at_most_root(r: i64, p: usize) -> bool {
    let mut power = vec![u32::try_from(r).expect("32 bits")];
    for _ in 0..TO_DOUBLE.ilog2() {
        power = squared(&power);
    }
    // 2^p is a one and p zeros.
    let mut limit = vec![0; p / 32];
    limit.push(1 << (p % 32));
    let by_length = power.len().cmp(&limit.len());
    by_length
        .then_with(|| power.iter().rev().cmp(limit.iter().rev()))
        .is_le()
}

/// The square of a number: digits to the base 2^32, low ones first, the last not 0.
fn squared(digits: &[u32]) -> Vec<u32> {
    let mut square = vec![0u32; 2 * digits.len()];
    for (i, &a) in digits.iter().enumerate() {
        let mut carry = 0;
        for (j, &b) in digits.iter().enumerate() {
            let sum = u64::from(square[i + j]) + u64::from(a) * u64::from(b) + carry;
            square[i + j] = sum as u32;
            carry = sum >> 32;
        }
        square[i + digits.len()] = carry as u32;
    }
    if square.last() == Some(&0) {
        square.pop();
    }
    square
}

#[cfg(test)]
mod tests {
    use super::*;

    #[test]
    fn squares_by_hand() {
        assert_eq!(squared(&[3]), [9]);
        assert_eq!(squared(&[u32::MAX]), [1, u32::MAX - 1]);
        // (2^32 + 1)^2 = 2^64 + 2 * 2^32 + 1.
        assert_eq!(squared(&[1, 1]), [1, 2, 1]);
        // 3^256 is between 2^405 and 2^406.
        assert!(!is_at_most_root(3, 405) && is_at_most_root(3, 406));
        assert!(!is_at_most_root(2, 255) && is_at_most_root(2, 256));
    }

    /// The rule itself: r^256 is at most 2^p, and 2^p below (r + 1)^256.
    #[test]
    fn each_rung_is_the_whole_part() {
        for p in 0..=LAST {
            let r = rung(p);
            assert!(is_at_most_root(r, p as usize), "R({p}) = {r}");
            assert!(!is_at_most_root(r + 1, p as usize), "R({p}) = {r}");
        }
    }

    /// By hand: 3 is 2^(405.75/256), 2^31 divided by 2^(1/256) is 2,141,676,972.7 and 2^30 times it 1,076,653,033.4.
    #[test]
    fn rungs_by_hand() {
        for (p, r) in [
            (0, 1),
            (255, 1),
            (256, 2),
            (405, 2),
            (406, 3),
            (511, 3),
            (512, 4),
            (1_536, 64),
            (7_681, 1_076_653_033),
            (7_935, 2_141_676_972),
            (LAST, 2_147_483_648),
        ] {
            assert_eq!(rung(p), r, "R({p})");
        }
        for (number, count) in [(1, 0), (2, 256), (3, 406), (4, 512), (64, 1_536), (2_147_483_648, LAST)] {
            assert_eq!(below(number), count, "{number}");
        }
    }
}
