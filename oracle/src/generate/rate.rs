//! A section whose CR is a unit that its first closing draws. CR has no part in what is drawn, so the section is run
//! once as it is, one of that closing's draws is taken, and the set-up is written anew.

use super::dice::Dice;
use super::section::Section;
use crate::compare::expected;
use crate::driver::Driver;
use crate::script::SetUp;

/// Rewrites the section's set-up.
pub fn meet(section: &mut Section, setup: &SetUp, dice: &mut Dice) {
    let Some((word, draws)) = first_closing(&section.text) else {
        return;
    };
    let mut rng = fastrand::Rng::with_seed(word);
    let units: Vec<f64> = (0..draws).map(|_| rng.f64()).collect();
    let rest = section.text.iter().position(|&b| b == b'\n').map_or(0, |i| i + 1);
    // Not every draw is a unit of the crossover: a few tries find one that is, and that matters.
    for _ in 0..8 {
        let cr = *dice.pick(&units);
        let mut text = Section::new(&SetUp { cr, ..setup.clone() }).text;
        text.extend_from_slice(&section.text[rest..]);
        section.text = text;
        let mut driver = Driver::default();
        expected(&mut driver, &section.text);
        if driver.counts.unit_equal > 0 {
            return;
        }
    }
}

/// The generator's word before the first closing, and how often that call draws.
fn first_closing(text: &[u8]) -> Option<(u64, u64)> {
    let mut driver = Driver::default();
    let mut out = Vec::new();
    for line in text.split_inclusive(|&b| b == b'\n') {
        let (word, draws) = (driver.word(), driver.counts.draws);
        driver.raw_line(line, &mut out).ok()?;
        if driver.counts.closings > 0 {
            return Some((word?, driver.counts.draws - draws));
        }
    }
    None
}
