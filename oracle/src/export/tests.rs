//! The second reader by hand, and what the generator of exports meets.

use super::compare::Totals;
use super::*;
use crate::generate::decimals::{self, Form};
use crate::generate::dice::Dice;
use crate::generate::exports;

fn answered(export: &str) -> String {
    String::from_utf8(answer(&Reader::default().read(export.as_bytes()))).unwrap()
}

fn value(text: &str) -> Option<u64> {
    Reader::default().value(text.as_bytes()).map(f64::to_bits)
}

fn faulty(fault: Fault) -> Reader {
    Reader { fault: Some(fault) }
}

#[test]
fn entries_in_the_order_of_the_file() {
    assert_eq!(answered(""), "");
    assert_eq!(
        answered("7,0.5\n07,-0\n18446744073709551615,100\n7,000\n"),
        "tell 7 3fe0000000000000\ntell 7 8000000000000000\ntell 18446744073709551615 4059000000000000\n\
         tell 7 0000000000000000\n"
    );
}

#[test]
fn values_are_the_nearest_doubles() {
    for (text, bits) in [
        ("0.1", 0x3fb9_9999_9999_999a),
        ("0.3", 0x3fd3_3333_3333_3333),
        ("-0.00", 0x8000_0000_0000_0000),
        ("000.500", 0x3fe0_0000_0000_0000),
        ("999999999999999", 0x430c_6bf5_2633_fff8),
        ("0.00000000000001", 0x3d06_849b_86a1_2b9b),
        ("-123456789.012345", 0xc19d_6f34_540c_a42b),
    ] {
        assert_eq!(value(text), Some(bits), "{text}");
    }
}

#[test]
fn nothing_else_is_a_value() {
    for text in [
        "", "-", ".", "-.", "+1", "--1", ".5", "5.", "-.5", "1..2", "1.2.3", "1-", " 1", "1 ", "1e5", "1E5", "inf",
        "nan", "-inf", "infinity", "1\r", "1,5", "0x1", "1_0",
    ] {
        assert_eq!(value(text), None, "{text}");
    }
    assert!(value("123456789012345").is_some() && value("1234567890123.45").is_some());
    assert!(value("1234567890123456").is_none() && value("1.234567890123456").is_none());
    assert!(value("0000000000000000").is_none());
}

#[test]
fn trial_numbers_at_their_edges() {
    let trial = |text: &str| Reader::default().trial(text.as_bytes());
    assert_eq!(trial("00000000000000000000"), Some(0));
    assert_eq!(trial("18446744073709551615"), Some(u64::MAX));
    for text in [
        "",
        "18446744073709551616",
        "99999999999999999999",
        "000000000000000000001",
        "-1",
        "+1",
        "1 ",
    ] {
        assert_eq!(trial(text), None, "{text}");
    }
}

#[test]
fn the_first_malformed_line_is_named() {
    assert_eq!(answered("\n"), "refused 14 1\n");
    assert_eq!(answered("1,2"), "refused 14 1\n");
    assert_eq!(answered("1,2\n\n3,4\n\n"), "refused 14 2\n");
    assert_eq!(answered("1,2\n3,4\r\n5,6"), "refused 14 2\n");
    assert_eq!(answered("1,2\n3,4\n5"), "refused 14 3\n");
}

/// 15 is judged after every line has been read, and the program's own limit before any.
#[test]
fn more_lines_than_the_history_has() {
    let filled = "7,0.5\n".repeat(MOST_ENTRIES);
    assert_eq!(answered(&filled).lines().count(), MOST_ENTRIES);
    assert_eq!(answered(&format!("{filled}8,1\n")), "refused 15\n");
    assert_eq!(answered(&format!("{filled}8,1\n8,1")), "refused 14 65538\n");
    let longest = "18446744073709551615,-0.12345678901234\n".repeat(MOST_ENTRIES);
    assert_eq!(longest.len(), LONGEST);
    assert_eq!(answered(&longest).lines().count(), MOST_ENTRIES);
    assert_eq!(answered(&format!("x{longest}")), "too long\n");
}

/// Of each form the values at its edges are accepted, and every line that is made at random.
#[test]
fn what_is_made_is_accepted() {
    let mut dice = Dice::new(3);
    assert_eq!(Form::all().count(), 240);
    for form in Form::all() {
        for number in form.edges().into_iter().chain([form.near_half(&mut dice)]) {
            let text = form.text(number);
            assert!(value(&text).is_some(), "{text}");
            assert_eq!(text.bytes().filter(u8::is_ascii_digit).count(), form.digits);
        }
    }
    for _ in 0..20_000 {
        assert_eq!(decimals::longest_line(&mut dice).len(), LONGEST_LINE);
        let line = decimals::line(&mut dice);
        assert!(
            line.len() <= LONGEST_LINE && Reader::default().line(line.as_bytes()).is_some(),
            "{line}"
        );
    }
}

/// A cut to 80 bits is noticed next to the middle between two doubles, and hardly anywhere else.
#[test]
fn some_values_lie_next_to_a_half() {
    let mut dice = Dice::new(5);
    let form = Form {
        digits: 15,
        places: 14,
        minus: false,
    };
    let noticed = |text: String| faulty(Fault::Halves).value(text.as_bytes()).map(f64::to_bits) != value(&text);
    let near = (0..1_000)
        .filter(|_| noticed(form.text(form.near_half(&mut dice))))
        .count();
    let any = (0..1_000)
        .filter(|_| noticed(form.text(dice.word() % 1_000_000_000_000_000)))
        .count();
    assert!(near > 100 && any == 0, "{near} and {any}");
}

/// Every kind of export is met, and every fault of the reader shows in one of them.
#[test]
fn exports_meet_every_fault() {
    let all: Vec<Vec<u8>> = exports::all(1, 50, 300).collect();
    let mut totals = Totals::default();
    for export in &all {
        totals.add(export, &Reader::default().read(export));
    }
    assert!(totals.values > 100_000 && totals.points > 50_000 && totals.minuses > 20_000 && totals.zeros > 1_000);
    let longest = all.iter().find(|e| e.len() == LONGEST).unwrap();
    let different: std::collections::BTreeSet<&[u8]> = longest.split(|&b| b == b'\n').collect();
    assert!(different.len() > 65_000);
    let mut dice = Dice::new(1);
    let malformed = (0..600).filter(|_| Reader::default().read(&exports::spoilt(&mut dice)).is_err());
    assert!(malformed.count() > 400);
    assert!(totals.malformed > 400 && totals.short == 2 && totals.too_long == 2 && totals.empty >= 1);
    for (name, fault) in FAULTS {
        let reads = |reader: Reader, export: &[u8]| answer(&reader.read(export));
        let noticed = all
            .iter()
            .any(|e| reads(faulty(fault), e) != reads(Reader::default(), e));
        assert!(noticed, "{name}");
    }
    assert!(all == exports::all(1, 50, 300).collect::<Vec<_>>());
}
