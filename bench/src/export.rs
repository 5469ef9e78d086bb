//! How long a metrics export takes to read.

use std::hint::black_box;

use emkhurtov::CompletedTrial;

use crate::saved::least;
use crate::value;

const LINES: u64 = 1_000_000;
const ROUNDS: usize = 5;

/// Trial numbers as a campaign counts them, and values of ten digits.
fn short(trial: u64) -> String {
    format!("{trial},0.{:09}\n", value(&[trial]) as u64 % 1_000_000_000)
}

/// 19 digits of a trial number, and a minus, 15 digits and a point of a value.
fn long(trial: u64) -> String {
    let digits = value(&[trial]) as u64;
    let (whole, behind) = (digits % 10_000_000, digits / 10_000_000 % 100_000_000);
    format!("{},-{whole:07}.{behind:08}\n", 1_000_000_000_000_000_000 + trial)
}

/// A million lines of each form, by line and by byte.
pub fn report() {
    let mut lent = vec![CompletedTrial::new(0, 0.0); LINES as usize];
    for (name, line) in [("short", short as fn(u64) -> String), ("long", long)] {
        let text: String = (0..LINES).map(line).collect();
        let read = least(ROUNDS, || {
            let count = CompletedTrial::read_export_into(black_box(text.as_bytes()), black_box(&mut lent));
            assert_eq!(count, Ok(LINES as usize));
        });
        let last = lent[LINES as usize - 1];
        let expected = line(LINES - 1);
        let (number, value) = expected.trim_end().split_once(',').unwrap();
        assert_eq!(
            (number.parse(), value.parse()),
            (Ok(last.number), Ok(last.value)),
            "another entry was read"
        );
        println!("bytes export/{name} {}", text.len());
        println!("time export/{name}-line {:.1}", read / LINES as f64);
        println!("time export/{name}-byte {:.2}", read / text.len() as f64);
    }
}
