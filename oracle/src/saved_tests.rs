//! Saved files by hand, from docs/SAVED.md.

use crate::compare::expected;
use crate::driver::Driver;
use crate::reader;
use crate::saved::{self, Record};

/// What a script answers, line by line, and how often it drew.
fn answers(script: &str) -> (Vec<String>, u64) {
    let mut driver = Driver::default();
    let text = String::from_utf8(expected(&mut driver, script.as_bytes())).unwrap();
    (text.lines().map(str::to_owned).collect(), driver.counts.draws)
}

/// The digits of a record.
fn record(next: u8, kind: u8, position: u8, words: [u64; 3]) -> String {
    let words: String = words.iter().map(|w| format!("{:016x}", w.swap_bytes())).collect();
    format!("{next:02x}00{kind:02x}00{position:02x}000000{words}")
}

/// The bytes of such records.
fn bytes(records: &[String]) -> Vec<u8> {
    let digits = records.concat();
    let byte = |at: usize| u8::from_str_radix(&digits[at..at + 2], 16).unwrap();
    (0..digits.len()).step_by(2).map(byte).collect()
}

const HALF: u64 = 0x3fe0_0000_0000_0000;

#[test]
fn a_fresh_state() {
    let (lines, _) = answers("new 3fe0000000000000 8000000000000000 current-to-best1 - 300\nsave\nbytes\nrestore\n");
    let by_hand = [
        "new",
        "saved 192",
        "0100010000000000000000000000e03f00000000000000800200000000000000",
        "0200010001000000000000000000000000000000000000002c01000000000000",
        "0300020000000000000000000000000000000000000000000000000000000000",
        "0400020001000000000000000000000000000000000000000000000000000000",
        "0500020002000000000000000000000000000000000000000000000000000000",
        "00000200030000002c0100000000000000000000000000000000000000000000",
        "restored",
    ];
    assert_eq!(lines, by_hand);
}

/// An Int that can only be -1 and a choice that can only be 0: after a closing all words but the generator's are known.
#[test]
fn a_state_after_a_closing() {
    let mut script = String::from("new 3fe0000000000000 3fe0000000000000 best1 2 9\n");
    for trial in [7, 7, 1, 2, 3, 4] {
        script += &format!("sample {trial} int -1 -1 lin 3\n");
    }
    script = script.replacen("sample 7 int -1 -1 lin 3\nsample 1", "sample 7 choice 1\nsample 1", 1);
    for (trial, value) in [(1, 5.0f64), (2, 3.0), (3, 4.0), (4, 3.0)] {
        script += &format!("tell {trial} {:016x}\n", value.to_bits());
    }
    script += "sample 5 choice 1\nsample 5 choice 1\nsample 5 choice 1\nsave\nbytes\n";
    let (lines, draws) = answers(&script);
    let word = 9u64.wrapping_add(0x9e37_79b9_7f4a_7c15u64.wrapping_mul(draws));
    let minus_one = (-1.0f64).to_bits();
    let (low, step) = (0x7fff_ffff_ffff_ffff, 0x8000_0000_0000_0003);
    let [five, three, four] = [5.0f64, 3.0, 4.0].map(f64::to_bits);
    let by_hand = [
        // F, CR, best1; a size is set, 2; the seed.
        record(1, 1, 0, [HALF, HALF, 1]),
        record(2, 1, 1, [1, 2, 9]),
        // The first trial has called, 7; discovery has ended; N, D, T; closed, idle, best slot; the generator's word.
        record(3, 2, 0, [1, 7, 1]),
        record(4, 2, 1, [4, 2, 1]),
        record(5, 2, 2, [1, 0, 1]),
        record(6, 2, 3, [word, 0, 0]),
        // Int -1..-1 by 3; one choice.
        record(7, 3, 0, [2, low, low]),
        record(8, 3, 1, [1, step, 3]),
        record(9, 3, 2, [1, 0, 0]),
        record(10, 3, 3, [0, 0, 0]),
        // Trial 5 has called three times; its next place is D.
        record(11, 4, 0, [5, 2, 0]),
        // Four parents: entry, choice, value.
        record(12, 5, 0, [minus_one, 0, five]),
        record(13, 5, 1, [minus_one, 0, three]),
        record(14, 5, 2, [minus_one, 0, four]),
        record(15, 5, 3, [minus_one, 0, three]),
        // Four candidates: entry, choice.
        record(16, 6, 0, [minus_one, 0, minus_one]),
        record(17, 6, 1, [0, minus_one, 0]),
        record(0, 6, 2, [minus_one, 0, 0]),
    ];
    let kept: Vec<&String> = lines.iter().filter(|line| line.len() == 64).collect();
    assert!(lines.contains(&"saved 576".to_owned()));
    assert_eq!(kept, by_hand.iter().collect::<Vec<_>>());
}

#[test]
fn the_chain_and_check_12() {
    let r = |next, kind| record(next, kind, 0, [1, 2, 3]);
    let kinds = |records: &[String]| {
        let chain = saved::chain(&bytes(records))?;
        Some(chain.iter().map(|record| record.kind).collect::<Vec<_>>())
    };
    assert_eq!(kinds(&[r(0, 4)]), Some(vec![4]));
    assert_eq!(kinds(&[r(0, 4), r(9, 5)]), Some(vec![4]));
    assert_eq!(kinds(&[r(3, 4), r(0, 9), r(2, 5), r(1, 6)]), Some(vec![4, 6, 9]));
    assert_eq!(kinds(&[]), None);
    assert_eq!(kinds(&[r(1, 4)]), None);
    assert_eq!(kinds(&[r(1, 4), r(1, 5)]), None);
    assert_eq!(kinds(&[r(1, 4), r(2, 5), r(1, 6)]), None);
    assert_eq!(kinds(&[r(1, 4), r(2, 5), r(3, 6)]), None);
    assert_eq!(saved::chain(&[0; 31]), None);
    assert_eq!(saved::chain(&[0; 33]), None);
    let first = saved::chain(&bytes(&[record(0, 2, 7, [1, 2, 3])])).unwrap()[0];
    let by_hand = Record {
        kind: 2,
        position: 7,
        words: [1, 2, 3],
    };
    assert_eq!(first, by_hand);
}

#[test]
fn check_13() {
    // A fresh state's six records, each word as it may be changed.
    let read = |changed: fn(&mut Vec<Record>)| {
        let mut records: Vec<Record> = (0..6)
            .map(|k| Record {
                kind: if k < 2 { 1 } else { 2 },
                position: if k < 2 { k } else { k - 2 },
                words: [0; 3],
            })
            .collect();
        changed(&mut records);
        reader::state(&records, Default::default())
    };
    assert!(read(|_| ()).is_some());
    assert!(read(|r| r.reverse()).is_some());
    assert!(read(|r| r[0].words = [0x4000_0000_0000_0000, 0x3ff0_0000_0000_0000, 2]).is_some());
    assert!(read(|r| r[1].words = [1, 160, u64::MAX]).is_some());
    assert!(read(|r| r[5].words[0] = u64::MAX).is_some());
    let refused: [fn(&mut Vec<Record>); 12] = [
        |r| r[0].kind = 0,
        |r| r[0].kind = 7,
        |r| r[1].position = 0,
        |r| r[1].position = 2,
        |r| r.truncate(5),
        |r| r.push(r[5]),
        |r| r[0].words[0] = 0x4000_0000_0000_0001,
        |r| r[0].words[2] = 3,
        |r| r[1].words[1] = 4,
        |r| r[2].words[0] = 1,
        |r| r[4].words[0] = 1,
        |r| r[5].words[2] = 1,
    ];
    for (i, changed) in refused.iter().enumerate() {
        assert!(read(*changed).is_none(), "{i}");
    }
}

/// What was saved answers as if it had not been: calls that are lost between leave nothing behind.
#[test]
fn a_restart_is_not_seen_in_the_answers() {
    let call = |trial: u64, d: &str| format!("sample {trial} {d}\n");
    let (float, choice) = ("float 0000000000000000 3ff0000000000000 lin -", "choice 5");
    let mut calls = vec![call(0, float), call(0, choice)];
    for trial in 1..14 {
        calls.extend([call(trial, float), call(trial, choice)]);
        calls.push(format!("tell {trial} {:016x}\n", (1.0 / trial as f64).to_bits()));
    }
    let new = "new 3fe0000000000000 3feccccccccccccd best1 4 1\n";
    let (whole, _) = answers(&format!("{new}{}look\nstate\n", calls.concat()));
    for at in 0..=calls.len() {
        let (before, after) = calls.split_at(at);
        let lost = format!("save\n{}look\n{}restore\n", call(99, float), call(99, choice));
        let (lines, _) = answers(&format!(
            "{new}{}{lost}{}look\nstate\n",
            before.concat(),
            after.concat()
        ));
        let from = lines.iter().position(|line| line.starts_with("saved")).unwrap();
        let to = lines.iter().position(|line| line == "restored").unwrap();
        assert_eq!([&lines[..from], &lines[to + 1..]].concat(), whole);
    }
}
