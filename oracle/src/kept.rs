//! The kept file of a script, and the samplers that were saved. The Rust reads no files: a restored sampler is a copy of
//! the one whose records the file's chain has, and only where none has them it is made from the file's words.

use std::collections::VecDeque;

use crate::campaign::Campaign;
use crate::driver::Malformed;
use crate::entries;
use crate::reader;
use crate::saved::{self, RECORD, Record};
use crate::text;

/// A kept file with more bytes than this is malformed.
pub const LONGEST_FILE: u64 = 81_920;

/// So many saved samplers are remembered.
const MOST_SAVED: usize = 64;

struct Saved {
    records: Vec<Record>,
    campaign: Campaign,
}

/// The kept file, empty at first, and what was saved.
#[derive(Default)]
pub struct Kept {
    file: Vec<u8>,
    saved: VecDeque<Saved>,
}

impl Kept {
    /// Lays a sampler's bytes in the kept file and remembers a copy of it; says the file's length.
    pub fn save(&mut self, c: &Campaign) -> usize {
        let records = saved::records(c);
        let campaign = c.copy();
        assert_eq!(saved::records(&campaign), records, "a copy is what it was copied from");
        self.file = saved::file(&records);
        self.saved.retain(|s| s.records != records);
        if self.saved.len() == MOST_SAVED {
            self.saved.pop_front();
        }
        self.saved.push_back(Saved { records, campaign });
        self.file.len()
    }

    /// The sampler that the kept file holds, and whether it is a copy of a saved one; or the check that refuses the file.
    pub fn restore(&self, limits: entries::Reading) -> Result<(Campaign, bool), u8> {
        let mut records = saved::chain(&self.file).ok_or(12)?;
        let read = Campaign::of(reader::state(&records, limits).ok_or(13)?);
        records.sort();
        assert_eq!(
            saved::records(&read),
            records,
            "what was read has the records of its file"
        );
        Ok(match self.saved.iter().find(|s| s.records == records) {
            Some(s) => (s.campaign.copy(), true),
            None => (read, false),
        })
    }

    /// Whether a refused file is refused for the size of an entry alone.
    pub fn is_too_large(&self) -> bool {
        let finite = entries::Reading(Some(entries::Fault::Unlimited));
        saved::chain(&self.file).is_some_and(|records| reader::state(&records, finite).is_some())
    }

    /// Whether the records stand as the writer lays them.
    pub fn is_canonical(&self) -> bool {
        saved::chain(&self.file).is_some_and(|records| saved::file(&records) == self.file)
    }

    pub fn file(&self) -> &[u8] {
        &self.file
    }

    pub fn blank(&mut self, length: u64) -> Result<(), Malformed> {
        if length > LONGEST_FILE {
            return Err(Malformed);
        }
        self.file = vec![0; length as usize];
        Ok(())
    }

    pub fn put(&mut self, offset: u64, bytes: &[u8]) -> Result<(), Malformed> {
        let from = usize::try_from(offset).map_err(|_| Malformed)?;
        let to = from.checked_add(bytes.len()).ok_or(Malformed)?;
        self.file.get_mut(from..to).ok_or(Malformed)?.copy_from_slice(bytes);
        Ok(())
    }

    /// One line a record.
    pub fn write(&self, out: &mut Vec<u8>) {
        for record in self.file.chunks(RECORD) {
            text::hex(out, record);
            out.push(b'\n');
        }
    }
}
