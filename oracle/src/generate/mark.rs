//! Where a campaign stands: what a kept file gives back to a section's ledger.

use std::collections::HashMap;

use crate::distribution::Distribution;
use crate::saved::RECORD;

/// Two kinds of records.
pub const PARENTS: usize = 5;
pub const CANDIDATES: usize = 6;

/// The ledger of a section without the history.
#[derive(Clone)]
pub struct Mark {
    pub dims: Vec<Distribution>,
    pub first: Option<u64>,
    pub n: Option<usize>,
    pub open: Vec<u64>,
    pub calls_of: HashMap<u64, usize>,
    pub generations: u64,
    pub size: Option<u64>,
}

impl Mark {
    /// As an accepted set-up leaves it.
    pub fn fresh(size: Option<u64>) -> Self {
        Self {
            dims: Vec::new(),
            first: None,
            n: None,
            open: Vec::new(),
            calls_of: HashMap::new(),
            generations: 0,
            size,
        }
    }

    /// N, 0 before discovery has ended.
    pub fn slots(&self) -> usize {
        self.n.unwrap_or(0)
    }

    /// The words of each kind in a saved file.
    fn words(&self) -> [usize; 6] {
        let (n, d, t) = (self.slots(), self.dims.len(), self.open.len());
        let parents = if self.generations > 0 { n * (d + 1) } else { 0 };
        let candidates = if self.n.is_some() { n.max(t) * d } else { 0 };
        [6, 10, 5 * d, 2 * t, parents, candidates]
    }

    /// The records of each kind in a saved file.
    pub fn records(&self) -> [usize; 6] {
        self.words().map(|words| words.div_ceil(3))
    }

    /// Where the entries stand in a canonical file: of the parents, or of the candidates.
    pub fn entries(&self, kind: usize) -> Vec<usize> {
        let before: usize = self.records()[..kind - 1].iter().sum();
        let row = self.dims.len() + usize::from(kind == PARENTS);
        let continuous = |word: &usize| {
            let d = self.dims.get(word % row);
            d.is_some_and(|d| !matches!(d, Distribution::Categorical(_)))
        };
        let offset = |word: usize| RECORD * (before + word / 3) + 8 + 8 * (word % 3);
        (0..self.words()[kind - 1]).filter(continuous).map(offset).collect()
    }
}
