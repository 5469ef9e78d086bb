//! Restarts in a random section: the campaign is saved, goes on or is lost, and is restored. Files are damaged so that
//! they are refused with certainty, or changed so that they are another sound state with certainty.

use super::campaign::Play;
use super::class::Class;
use super::mark::{CANDIDATES, PARENTS};
use super::plan::Plan;
use super::refused;
use super::values;
use crate::kept::LONGEST_FILE;
use crate::ladder;
use crate::midpoint::BoundsRule;
use crate::saved::RECORD;

/// Bytes of the kept file that are overwritten, and what stood there.
struct Damage {
    offset: usize,
    wrong: Vec<u8>,
    right: Vec<u8>,
}

impl Play<'_> {
    /// A save or a restart now and then, seldom where a state is long.
    pub(super) fn restarts(&mut self) {
        if !self.plan.restarts {
            return;
        }
        let long = self.s.n.unwrap_or(1) * self.s.dims.len().max(1);
        if self.s.kept.is_some() && self.dice.once_in(12 + long / 2) {
            self.restart();
        } else if self.dice.once_in(12 + long / 2) {
            self.s.save();
            if self.s.kept.is_none() {
                return;
            }
            if self.dice.once_in(2 + long / 40) {
                self.s.bytes();
            }
            if self.dice.percent(40) {
                self.restart();
            }
        }
    }

    /// What a reboot takes: the calls since the save, sometimes the state and the history too, or the file itself.
    fn restart(&mut self) {
        let lost = self.dice.below(4);
        match lost {
            0 => self.set_up_anew(),
            1 if self.plan.damage => return self.file_is_lost(),
            _ => (),
        }
        if self.plan.damage && self.dice.percent(60) {
            self.refused_restore();
        }
        if self.dice.percent(20) {
            self.another_state();
        }
        if self.dice.percent(self.plan.chances.large) {
            self.extreme_entries();
        }
        self.s.restore();
        self.s.look();
        if self.dice.percent(20) {
            // Some calls that are lost, and the same file again.
            for _ in 0..self.dice.between(1, 3) {
                let number = self.new_number();
                self.call(number);
            }
            self.s.restore();
        }
        if lost == 0 {
            let all = self.dice.percent(70);
            self.tell_again(all);
        } else if self.dice.percent(40) {
            self.clear_history(true);
        }
    }

    /// Another campaign is begun, or a set-up refused: the history is empty then.
    fn set_up_anew(&mut self) {
        if self.plan.damage && self.dice.percent(50) {
            let setup = refused::set_up(&self.plan.setup, self.dice);
            return self.s.set_up_anew(&setup);
        }
        let other = Plan::random(Class::Small, self.dice).setup;
        let same = self.dice.percent(30);
        self.s.set_up_anew(if same { &self.plan.setup } else { &other });
        for _ in 0..self.dice.below(4) {
            let number = self.new_number();
            self.call(number);
        }
        let midpoint = !same && other.rule == BoundsRule::Midpoint;
        if midpoint || self.s.dims.iter().any(ladder::is_ladder) {
            // It is refused, and the file that is restored stays.
            self.s.save();
        }
    }

    /// The kept file is gone, and what stands there is refused.
    fn file_is_lost(&mut self) {
        let some = self.dice.below(LONGEST_FILE as usize + 1) as u64;
        let length = *self.dice.pick(&[0, 1, 31, 32, 33, 64, 192, LONGEST_FILE, some]);
        self.s.file(length);
        self.s.restore_refused();
    }

    /// The kept file is made that of a state with another generator word, or with counters at their most.
    fn another_state(&mut self) {
        let mark = self.s.kept.as_ref().expect("a file was saved");
        if mark.generations == 0 || self.dice.percent(50) {
            let word = self.dice.word();
            return self.s.put(RECORD * 5 + 8, &word.to_le_bytes());
        }
        let closed = u64::from(u32::MAX) - self.dice.below(3) as u64;
        let idle = *self.dice.pick(&[closed, closed, closed - 1, 0]);
        self.s
            .put(RECORD * 4 + 8, &[closed.to_le_bytes(), idle.to_le_bytes()].concat());
    }

    /// The kept file is made that of a state with entries of up to 4e300 in size; with a larger one it is refused first, often twice.
    fn extreme_entries(&mut self) {
        let mark = self.s.kept.as_ref().expect("a file was saved");
        let both = &[PARENTS, CANDIDATES][..];
        let kinds = *self.dice.pick(&[both, both, &both[..1], &both[1..]]);
        let mut places: Vec<usize> = kinds.iter().flat_map(|&kind| mark.entries(kind)).collect();
        if places.is_empty() {
            return;
        }
        self.dice.shuffle(&mut places);
        let refused = if self.plan.damage { self.dice.below(4) } else { 0 };
        for &place in places.iter().take(refused) {
            self.s.put(place, &values::too_large(self.dice).to_le_bytes());
            self.s.restore_refused();
            self.s.put(place, &values::sound_entry(self.dice).to_le_bytes());
        }
        let some = self.dice.between(1, places.len());
        for &place in &places[..*self.dice.pick(&[some, places.len(), places.len()])] {
            self.s.put(place, &values::sound_entry(self.dice).to_le_bytes());
        }
    }

    /// The kept file is damaged, refused and mended.
    fn refused_restore(&mut self) {
        let damage = self.damage();
        self.s.put(damage.offset, &damage.wrong);
        self.s.restore_refused();
        self.s.put(damage.offset, &damage.right);
    }

    /// One that checks 12 or 13 find, whatever the state's words are.
    fn damage(&mut self) -> Damage {
        let mark = self.s.kept.as_ref().expect("a file was saved");
        let (slots, by_kind) = (mark.slots(), mark.records());
        let count: usize = by_kind.iter().sum();
        let k = self.dice.below(count);
        let (kind, position) = kind_at(by_kind, k);
        let next = if k + 1 < count { k + 1 } else { 0 };
        let two = |place: usize, wrong: usize, right: usize| Damage {
            offset: RECORD * k + place,
            wrong: (wrong as u16).to_le_bytes().to_vec(),
            right: (right as u16).to_le_bytes().to_vec(),
        };
        match self.dice.below(8) {
            0 => two(0, *self.dice.pick(&[count, 0xffff]), next),
            // A record met twice: itself or an earlier one, but not record 0, which would end the chain.
            1 if k > 0 => two(0, self.dice.between(1, k), next),
            // The chain is cut, or leaves a record out.
            2 if k + 2 < count => two(0, *self.dice.pick(&[0, k + 2]), next),
            3 => two(2, *self.dice.pick(&[0, 7, kind + 256]), kind),
            4 if position > 0 => two(4, position - 1, position),
            4 | 5 => two(4, position + 1, position),
            // The words past the end of the counts: the last two of record 5.
            6 => Damage {
                offset: RECORD * 5 + 16 + self.dice.below(16),
                wrong: vec![self.dice.between(1, 255) as u8],
                right: vec![0],
            },
            // N, the first word of record 3: another one is not sound.
            _ => Damage {
                offset: RECORD * 3 + 8,
                wrong: (slots + self.dice.between(1, 200)).to_le_bytes().to_vec(),
                right: slots.to_le_bytes().to_vec(),
            },
        }
    }
}

/// Kind and position of the record that the writer lays at this place.
fn kind_at(by_kind: [usize; 6], k: usize) -> (usize, usize) {
    let mut position = k;
    for (kind, count) in (1..).zip(by_kind) {
        if position < count {
            return (kind, position);
        }
        position -= count;
    }
    panic!("no record {k}");
}
