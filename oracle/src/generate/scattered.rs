//! A section in which a kept file is laid anew before it is restored: the same records on the chain, in another order
//! and in other places. The section is run once as it is, for the file's bytes.

use super::dice::Dice;
use super::section::Section;
use crate::driver::Driver;
use crate::saved::RECORD;
use crate::text;

/// Longer files are left as they are, for the script's sake.
const MOST_RECORDS: usize = 60;

/// Records that a `put` line has room for.
const A_LINE: usize = 7;

/// Scatters the file of one of the section's restores, where there is one.
pub fn scatter(section: &mut Section, dice: &mut Dice) {
    let lines: Vec<&[u8]> = section.text.split_inclusive(|&b| b == b'\n').collect();
    let restores = restores(&lines);
    if restores.is_empty() {
        return;
    }
    let (at, file) = dice.pick(&restores);
    let anew = laid_anew(file, dice);
    section.text = [&lines[..*at].concat()[..], &anew, &lines[*at..].concat()].concat();
}

/// The restores that are taken, each with its file; those after which nothing is put into it.
fn restores(lines: &[&[u8]]) -> Vec<(usize, Vec<u8>)> {
    let mut driver = Driver::default();
    let mut all = Vec::new();
    // How many there were when the file was laid. A refused save lays none.
    let mut laid = 0;
    for (at, line) in lines.iter().enumerate() {
        let file = driver.kept_file().to_vec();
        let mut out = Vec::new();
        if driver.raw_line(line, &mut out).is_err() {
            break;
        }
        if line.starts_with(b"file ") || out.starts_with(b"saved ") {
            laid = all.len();
        } else if line.starts_with(b"put ") {
            all.truncate(laid);
        } else if out == b"restored\n" && file.len() <= RECORD * MOST_RECORDS {
            all.push((at, file));
        }
    }
    all
}

/// The lines that lay a canonical file's records elsewhere, with others between that are off the chain.
fn laid_anew(file: &[u8], dice: &mut Dice) -> Vec<u8> {
    let records: Vec<&[u8]> = file.chunks(RECORD).collect();
    let count = records.len() + dice.below(6);
    let mut order: Vec<usize> = (0..records.len()).collect();
    dice.shuffle(&mut order);
    let mut places: Vec<usize> = (1..count).collect();
    dice.shuffle(&mut places);
    places.insert(0, 0);
    // What is off the chain is ignored, be it a record that stands twice then or no record at all.
    let junk = [records[0].to_vec(), vec![0xff; RECORD], vec![0; RECORD]];
    let mut anew: Vec<Vec<u8>> = (0..count).map(|_| dice.pick(&junk).clone()).collect();
    for (i, &record) in order.iter().enumerate() {
        let next = if i + 1 < order.len() { places[i + 1] } else { 0 };
        let place = &mut anew[places[i]];
        place.copy_from_slice(records[record]);
        place[..2].copy_from_slice(&(next as u16).to_le_bytes());
    }
    let mut lines = format!("file {}\n", RECORD * count).into_bytes();
    for (i, some) in anew.chunks(A_LINE).enumerate() {
        lines.extend_from_slice(format!("put {} ", RECORD * A_LINE * i).as_bytes());
        text::hex(&mut lines, &some.concat());
        lines.push(b'\n');
    }
    lines
}
