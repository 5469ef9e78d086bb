//! Wrong readings, to show that a comparison can fail. A word names each; the one that is chosen holds for all that is made
//! from then on.

use std::fmt::Debug;
use std::sync::OnceLock;

/// The fault of a word.
pub fn named<F: Copy>(faults: &[(&str, F)], word: &str) -> Option<F> {
    let found = faults.iter().find(|(name, _)| *name == word)?;
    Some(found.1)
}

/// The fault that was chosen, if one was.
pub struct Chosen<F>(OnceLock<F>);

impl<F: Copy + Debug> Chosen<F> {
    pub const fn none() -> Self {
        Self(OnceLock::new())
    }

    pub fn get(&self) -> Option<F> {
        self.0.get().copied()
    }

    /// Chooses the fault of a word, if it has one.
    pub fn choose(&self, faults: &[(&str, F)], word: &str) -> Option<()> {
        let fault = named(faults, word)?;
        self.0.set(fault).expect("one fault at a time");
        Some(())
    }
}

/// Tests of wrong readings of any kind.
#[cfg(test)]
pub mod tests {
    use crate::compare::expected;
    use crate::driver::Driver;
    use crate::generate::stream::Stream;

    /// Each wrong reading is noticed by few calls.
    pub fn each_is_noticed<F: Copy>(faults: &[(&str, F)], faulty: impl Fn(F) -> Driver) {
        for &(name, fault) in faults {
            let mut faulty = faulty(fault);
            let mut driver = Driver::default();
            let noticed = Stream::new(1, 10_000).any(|s| expected(&mut driver, &s) != expected(&mut faulty, &s));
            assert!(noticed, "{name}");
        }
    }

    /// No script without the word tells a wrong reading from the right one.
    pub fn none_shows_without<F: Copy>(word: &[u8], faults: &[(&str, F)], faulty: impl Fn(F) -> Driver) {
        let without = |script: &Vec<u8>| !script.windows(word.len()).any(|at| at == word);
        for script in Stream::new(1, 10_000).filter(without) {
            let right = expected(&mut Driver::default(), &script);
            for &(name, fault) in faults {
                assert!(expected(&mut faulty(fault), &script) == right, "{name}");
            }
        }
    }
}
