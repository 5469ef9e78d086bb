//! Metrics exports: what is read, what is refused, and the words for it.

use emkhurtov::{CompletedTrial, Distribution, ExportError, ExportFault, Sampler};

/// Numbers and bits, since minus zero is to be told from zero.
fn read(text: &[u8]) -> Result<Vec<(u64, u64)>, ExportError> {
    let history = CompletedTrial::read_export(text)?;
    Ok(history.iter().map(|t| (t.number, t.value.to_bits())).collect())
}

#[test]
fn entries_are_read() {
    assert_eq!(read(b""), Ok(vec![]));
    let text = b"0,0\n7,-0\n00000000000000000007,-00.000\n18446744073709551615,-0.1\n\
        3,0.3\n3,123456789.012345\n1,-999999999999999\n1,0.00000000000001\n2,8.00004122774991\n";
    let expected = [
        (0, 0),
        (7, 0x8000_0000_0000_0000),
        (7, 0x8000_0000_0000_0000),
        (u64::MAX, 0xbfb9_9999_9999_999a),
        (3, 0x3fd3_3333_3333_3333),
        (3, 0x419d_6f34_540c_a42b),
        (1, 0xc30c_6bf5_2633_fff8),
        (1, 0x3d06_849b_86a1_2b9b),
        (2, 0x4020_0005_675f_acd4),
    ];
    assert_eq!(read(text), Ok(expected.to_vec()));
}

/// The fault and the words for it, of line 3 behind two good ones.
#[test]
fn faults_are_named() {
    use ExportFault::*;
    let cases: [(&[u8], ExportFault, &str); 48] = [
        (b"\n", EmptyLine, "the line is empty"),
        (b"\r\n", NoComma, "no comma"),
        (b"5;0.5\n", NoComma, "no comma"),
        (b"0.5\n", NoComma, "no comma"),
        (b",0.5\n", NoNumber, "no trial number before the comma"),
        (b",\n", NoNumber, "no trial number before the comma"),
        (b"-5,1\n", NumberByte(b'-'), "byte 0x2d (-) in the trial number"),
        (b"+5,1\n", NumberByte(b'+'), "byte 0x2b (+) in the trial number"),
        (b"5 ,1\n", NumberByte(b' '), "byte 0x20 (space) in the trial number"),
        (b"trial,value\n", NumberByte(b't'), "byte 0x74 (t) in the trial number"),
        (b"\xef\xbb\xbf5,1\n", NumberByte(0xef), "byte 0xef in the trial number"),
        (b"\t5,1\n", NumberByte(b'\t'), "byte 0x09 (tab) in the trial number"),
        (
            b"0000000000000000000000x,1\n",
            NumberByte(b'x'),
            "byte 0x78 (x) in the trial number",
        ),
        (
            b"000000000000000000001,1\n",
            NumberDigits(21),
            "21 digits in the trial number, 20 at most",
        ),
        (
            b"18446744073709551616,1\n",
            LargeNumber,
            "the trial number is over 18446744073709551615",
        ),
        (
            b"99999999999999999999,x\n",
            LargeNumber,
            "the trial number is over 18446744073709551615",
        ),
        (b"5,\n", NoValue, "no value behind the comma"),
        (b"5,-\n", NoDigit, "a minus with no digit behind it"),
        (b"5, 1\n", ValueByte(b' '), "byte 0x20 (space) in the value"),
        (b"5,1 \n", ValueByte(b' '), "byte 0x20 (space) in the value"),
        (b"5,1\r\n", ValueByte(b'\r'), "byte 0x0d (carriage return) in the value"),
        (b"5,1\0\n", ValueByte(0), "byte 0x00 (zero) in the value"),
        (b"5,+1\n", ValueByte(b'+'), "byte 0x2b (+) in the value"),
        (b"5,1e5\n", ValueByte(b'e'), "byte 0x65 (e) in the value"),
        (b"5,inf\n", ValueByte(b'i'), "byte 0x69 (i) in the value"),
        (b"5,-nan\n", ValueByte(b'n'), "byte 0x6e (n) in the value"),
        (b"5,\xff\n", ValueByte(0xff), "byte 0xff in the value"),
        (b"5,\x7f\n", ValueByte(0x7f), "byte 0x7f in the value"),
        (b"5,1234567890123456x\n", ValueByte(b'x'), "byte 0x78 (x) in the value"),
        (b"5,,1\n", SecondComma, "a second comma"),
        (b"5,1,5\n", SecondComma, "a second comma"),
        (b"5,1.,5\n", SecondComma, "a second comma"),
        (b"5,--1\n", InnerMinus, "a minus that is not in front of the value"),
        (b"5,1-\n", InnerMinus, "a minus that is not in front of the value"),
        (b"5,1.2.3\n", SecondPoint, "a second point"),
        (b"5,1..2\n", SecondPoint, "a second point"),
        (b"5,1.2.\n", SecondPoint, "a second point"),
        (b"5,.\n", PointFirst, "a point with no digit before it"),
        (b"5,.5\n", PointFirst, "a point with no digit before it"),
        (b"5,-.5\n", PointFirst, "a point with no digit before it"),
        (b"5,5.\n", PointLast, "a point with no digit behind it"),
        (b"5,-1234567890123456.\n", PointLast, "a point with no digit behind it"),
        (
            b"5,1234567890123456\n",
            ValueDigits(16),
            "16 digits in the value, 15 at most",
        ),
        (
            b"5,-0.000000000000000\n",
            ValueDigits(16),
            "16 digits in the value, 15 at most",
        ),
        (b"5,1", NoLineFeed, "no line feed at the end"),
        (b"5,-", NoLineFeed, "no line feed at the end"),
        (b"5", NoLineFeed, "no line feed at the end"),
        (b" ", NoLineFeed, "no line feed at the end"),
    ];
    for (line, fault, words) in cases {
        let text = [b"1,2\n3,4\n", line].concat();
        let error = CompletedTrial::read_export(&text).unwrap_err();
        assert_eq!(error, ExportError::MalformedLine { line: 3, fault });
        assert_eq!((error.number(), error.line()), (14, Some(3)));
        assert_eq!(error.to_string(), format!("line 3: {words}"));
        assert_eq!(fault.to_string(), words);
    }
}

#[test]
fn the_first_malformed_line_is_named() {
    let line = |text| CompletedTrial::read_export(text).unwrap_err().line();
    assert_eq!(line(b"x\n1,2\nx\n"), Some(1));
    assert_eq!(line(b"\n\n\n\n"), Some(1));
    assert_eq!(line(b"1,2\n\n"), Some(2));
    assert_eq!(line(b"1,2\n\n3,4\n5"), Some(2));
    assert_eq!(line(b"1,2\n3,4\n5,6"), Some(3));
    let mut long = b"1,2\n".repeat(100_000);
    long.extend(b"1,2");
    assert_eq!(line(&long), Some(100_001));
    // Rust's threads have the stack that this needs; so has one of 1.5 MB.
    let small = std::thread::Builder::new().stack_size(3 << 19);
    let there = small.spawn(move || CompletedTrial::read_export(&long).unwrap_err().line());
    assert_eq!(there.unwrap().join().unwrap(), Some(100_001));
}

/// A line without its line feed as the standard library reads it, where its form is an export's.
fn second_line(line: &[u8]) -> Option<(u64, u64)> {
    let digits = |word: &str, most| (1..=most).contains(&word.len()) && word.bytes().all(|b| b.is_ascii_digit());
    let (number, value) = std::str::from_utf8(line).ok()?.split_once(',')?;
    let unsigned = value.strip_prefix('-').unwrap_or(value);
    let formed = match unsigned.split_once('.') {
        Some((whole, behind)) => digits(whole, 14) && digits(behind, 15 - whole.len()),
        None => digits(unsigned, 15),
    };
    let value: f64 = value.parse().ok().filter(|_| formed && digits(number, 20))?;
    Some((number.parse().ok()?, value.to_bits()))
}

/// The entries, or the number of the first malformed line.
fn second_read(text: &[u8]) -> Result<Vec<(u64, u64)>, usize> {
    let lines = text.split_inclusive(|byte| *byte == b'\n');
    let entry = |(before, line): (usize, &[u8])| {
        let entry = line.strip_suffix(b"\n").and_then(second_line);
        entry.ok_or(before + 1)
    };
    lines.enumerate().map(entry).collect()
}

/// Each byte replaced by every byte, every byte put before it, and it left out: what is read is what the standard
/// library reads, and what is refused has its line and a reason.
#[test]
fn changed_exports() {
    let text = b"7,-0.25\n18446744073709551615,12345678.9012345\n0,-999999999999999\n";
    let (mut good, mut bad) = (0, 0);
    let mut judge = |changed: &[u8]| match (read(changed), second_read(changed)) {
        (Ok(entries), expected) => {
            assert_eq!(Ok(entries), expected);
            good += 1;
        }
        (Err(ExportError::MalformedLine { line, fault }), expected) => {
            assert_eq!(expected, Err(line));
            assert_ne!(fault, ExportFault::Unexplained, "{}", changed.escape_ascii());
            bad += 1;
        }
        (Err(error), _) => panic!("{error}"),
    };
    for at in 0..text.len() {
        let (before, behind) = text.split_at(at);
        judge(&[before, &behind[1..]].concat());
        for byte in 0..=u8::MAX {
            judge(&[before, &[byte], &behind[1..]].concat());
            judge(&[before, &[byte], behind].concat());
        }
    }
    assert!(good > 500 && bad > 20_000);
}

#[test]
fn lent_places() {
    let text = b"9,0.5\n3,-1\n9,2\n";
    let [filling, a, b, c] = [(77, 7.25), (9, 0.5), (3, -1.0), (9, 2.0)].map(|(n, x)| CompletedTrial::new(n, x));
    let mut lent = [filling; 5];
    for places in 0..3 {
        let short = CompletedTrial::read_export_into(text, &mut lent[..places]).unwrap_err();
        assert_eq!(short, ExportError::ShortHistory { entries: 3, places });
        assert_eq!((short.number(), short.line()), (15, None));
        // A malformed line comes first.
        let cut_off = CompletedTrial::read_export_into(&text[..text.len() - 1], &mut lent[..places]).unwrap_err();
        assert_eq!((cut_off.number(), cut_off.line()), (14, Some(3)));
    }
    assert_eq!(
        CompletedTrial::read_export_into(b"9,0.5\n3;1\n", &mut lent)
            .unwrap_err()
            .line(),
        Some(2)
    );
    assert_eq!(lent, [filling; 5]);
    assert_eq!(CompletedTrial::read_export_into(b"", &mut []), Ok(0));
    assert_eq!(CompletedTrial::read_export_into(b"", &mut lent), Ok(0));
    assert_eq!(lent, [filling; 5]);
    assert_eq!(CompletedTrial::read_export_into(text, &mut lent[..3]), Ok(3));
    assert_eq!(lent, [a, b, c, filling, filling]);
    lent = [filling; 5];
    assert_eq!(CompletedTrial::read_export_into(text, &mut lent), Ok(3));
    assert_eq!(lent, [a, b, c, filling, filling]);
}

/// A campaign that is lent what was read goes on, to the last bit, as one that is lent the same history directly.
#[test]
fn a_campaign_goes_on() {
    let quota = Distribution::float(8.0, 256.0);
    let mut direct = Sampler::builder().population_size(4).seed(7).build().unwrap();
    let mut from_text = direct.clone();
    let (mut told, mut text) = (Vec::new(), String::new());
    for trial in 0..22 {
        let history = CompletedTrial::read_export(text.as_bytes()).unwrap();
        assert_eq!(history, told);
        let expected = direct.sample(&quota, trial, &told).unwrap();
        assert_eq!(from_text.sample(&quota, trial, &history), Ok(expected));
        assert!(from_text.state_bytes() == direct.state_bytes());
        // Eighths, so that three digits behind the point are the very value.
        let value = ((trial * 7919 % 1009) as f64 - 400.0) / 8.0;
        told.push(CompletedTrial::new(trial, value));
        text += &format!("{trial},{value:.3}\n");
    }
    assert_eq!(from_text.look().unwrap().unwrap().closed, 5);
}

#[test]
fn errors_say_why() {
    fn shared<T: Send + Sync + Copy + std::error::Error + 'static>() {}
    shared::<ExportError>();
    shared::<ExportFault>();
    let short = CompletedTrial::read_export_into(b"1,2\n", &mut []).unwrap_err();
    assert_eq!(short.to_string(), "the lent history is too short: places 0, entries 1");
}
