//! Exports of the metrics collector: sound ones, those at the edges of what is accepted, and damaged ones. The same for
//! the same seed.

use super::decimals::{self, Form};
use super::dice::Dice;
use super::edges::{TRIALS, VALUES};
use crate::export::{LONGEST, LONGEST_LINE, MOST_ENTRIES};

/// Lines of a sound export.
const LINES: usize = 100;

/// So many sound exports and so many damaged ones, beside those at the edges.
pub fn all(seed: u64, sound: usize, damaged: usize) -> impl Iterator<Item = Vec<u8>> {
    let mut dice = Dice::new(seed);
    let random = (0..sound + damaged).map(move |k| {
        if k < sound {
            lines(&mut dice, LINES)
        } else {
            spoilt(&mut dice)
        }
    });
    std::iter::once(Vec::new())
        .chain(std::iter::once_with(move || forms(&mut Dice::new(seed))))
        .chain(by_hand())
        .chain((0..LARGE).map(move |k| large(k, &mut Dice::new(!seed))))
        .chain(random)
}

fn lines(dice: &mut Dice, count: usize) -> Vec<u8> {
    (0..count)
        .map(|_| decimals::line(dice))
        .collect::<String>()
        .into_bytes()
}

/// Every form, at its edges and next to a half.
fn forms(dice: &mut Dice) -> Vec<u8> {
    let mut text = String::new();
    for form in Form::all() {
        let half = form.near_half(dice);
        for number in form.edges().into_iter().chain([half]) {
            text += &format!("{},{}\n", decimals::trial(dice), form.text(number));
        }
    }
    text.into_bytes()
}

/// The trial numbers and values at the edge, each alone, between others, and last with no line feed.
fn by_hand() -> impl Iterator<Item = Vec<u8>> {
    let trials = TRIALS.iter().map(|trial| format!("{trial},1"));
    let values = VALUES.iter().map(|value| format!("1,{value}"));
    let whole = [
        "",
        ",",
        "1",
        "1.5",
        "1;2",
        "1 2",
        "1,,2",
        "tell 1 0000000000000000",
        "trial,value",
        "\r",
        "\n",
    ];
    let long = [1_000, 100_000].map(|count| "0".repeat(count));
    let long = long
        .iter()
        .flat_map(|zeros| [format!("{zeros}1,1"), format!("1,{zeros}1"), format!("1,0.{zeros}1")]);
    let long: Vec<String> = long.collect();
    let lines = trials
        .chain(values)
        .chain(whole.into_iter().map(str::to_owned))
        .chain(long);
    lines.flat_map(|line| {
        [
            format!("{line}\n"),
            format!("7,0.5\n8,-2\n{line}\n9,3\n\n"),
            format!("7,0.5\n{line}"),
        ]
        .map(String::into_bytes)
    })
}

/// How many there are of those that fill the history or the program's own limit.
const LARGE: usize = 9;

/// The history is filled, passed by one line, passed by a malformed line; the same by the longest lines there are.
fn large(k: usize, dice: &mut Dice) -> Vec<u8> {
    let filled = match k {
        0..4 => lines(dice, MOST_ENTRIES),
        _ => (0..MOST_ENTRIES)
            .map(|_| decimals::longest_line(dice))
            .collect::<String>()
            .into_bytes(),
    };
    let last = LONGEST - LONGEST_LINE;
    match k {
        0 | 4 => filled,
        1 => [filled, b"7,0.5\n".to_vec()].concat(),
        2 => [filled, b"7,0.5 \n".to_vec()].concat(),
        3 => [filled, b"7,0.5".to_vec()].concat(),
        // As many bytes, and more lines; as many bytes, and the last line without its line feed.
        5 => [&filled[..last], b"1,2\n3,-4.56789012345678\n00000000,00000\n"].concat(),
        6 => [&filled[..last], b"18446744073709551615,-99999999999999.90"].concat(),
        // A byte more than the program reads, whatever it is.
        7 => [filled, b"\n".to_vec()].concat(),
        _ => [b"x\n".to_vec(), filled].concat(),
    }
}

/// A few lines, damaged in one place, seldom in two: the first malformed line is the one that is named.
pub fn spoilt(dice: &mut Dice) -> Vec<u8> {
    let count = dice.between(1, 8);
    let mut text = lines(dice, count);
    damage(&mut text, dice);
    if dice.once_in(5) {
        damage(&mut text, dice);
    }
    text
}

/// What stands in an export, and what stands next to a digit, a comma, a point, a minus or a line feed in ASCII.
const TELLING: &[u8] = b"0123456789,.-\n\r\t\x0b +/:;eExinf_\0\x80\xff";

fn damage(text: &mut Vec<u8>, dice: &mut Dice) {
    if text.is_empty() {
        return;
    }
    let at = dice.below(text.len());
    let any = dice.below(256) as u8;
    let telling = *dice.pick(TELLING);
    let feeds: Vec<usize> = (0..text.len()).filter(|&i| text[i] == b'\n').collect();
    let feed = if feeds.is_empty() { at } else { *dice.pick(&feeds) };
    match dice.below(13) {
        0 | 1 => text[at] = any,
        2 => text[at] = telling,
        3 => text.insert(dice.below(text.len() + 1), any),
        4 => text.insert(at, telling),
        5 => {
            text.remove(at);
        }
        // Two lines are joined, or the last one has no line feed.
        6 => {
            text.remove(feed);
        }
        7 => {
            text.pop();
        }
        8 => text.insert(feed, b'\r'),
        9 => *text = text.split(|&b| b == b'\n').collect::<Vec<_>>().join(&b"\r\n"[..]),
        // An empty line in front, between or behind.
        10 => text.insert(if dice.once_in(4) { 0 } else { feed }, b'\n'),
        11 => text.truncate(at),
        _ => {
            // Another number or value in a line.
            let from = text[..at].iter().rposition(|&b| b == b'\n').map_or(0, |i| i + 1);
            let to = from
                + text[from..]
                    .iter()
                    .position(|&b| b == b'\n')
                    .unwrap_or(text.len() - from);
            let line = if dice.once_in(2) {
                format!("{},{}", dice.pick(TRIALS), decimals::value(dice))
            } else {
                format!("{},{}", decimals::trial(dice), dice.pick(VALUES))
            };
            text.splice(from..to, line.into_bytes());
        }
    }
}
