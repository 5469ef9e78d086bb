//! Whether this crate and the linked library lay the structs out alike: sizes and offsets when this crate is built, and the
//! library's own numbers (`de_marks`) when the first sampler is.

use std::mem::{offset_of, size_of};
use std::sync::OnceLock;

use crate::ffi::*;
use crate::{CompletedTrial, TrialState};

// On x86-64, the only machine that the library is built for.
const _: () = {
    assert!(size_of::<DeSetup>() == 56 && size_of::<DeDistribution>() == 80 && size_of::<DeCandidate>() == 160);
    assert!(size_of::<DeMember>() == 168 && size_of::<DeTrialProgress>() == 16 && size_of::<CompletedTrial>() == 24);
    assert!(offset_of!(DeState, dims) == 96 && offset_of!(DeState, candidates) == 1376);
    assert!(offset_of!(DeState, parents) == 37216 && offset_of!(DeState, n_trials) == 64096);
    assert!(offset_of!(DeState, idle) == 67708 && size_of::<DeState>() == 67712);
    assert!(size_of::<DeCall>() == 88 && size_of::<DeAnswer>() == 48 && size_of::<DeLook>() == 1328);
    assert!(size_of::<DeSetting>() == 32 && size_of::<DeInternal>() == 24 && size_of::<DeFile>() == 24);
    assert!(size_of::<DeRead>() == 32 && size_of::<DeCount>() == 24);
    // A history crosses as it is: field for field the library's entries, and the states are the header's numbers.
    assert!(size_of::<DeCompletedTrial>() == size_of::<CompletedTrial>());
    assert!(offset_of!(DeCompletedTrial, number) == offset_of!(CompletedTrial, number));
    assert!(offset_of!(DeCompletedTrial, value) == offset_of!(CompletedTrial, value));
    assert!(offset_of!(DeCompletedTrial, state) == offset_of!(CompletedTrial, state));
    assert!(TrialState::Complete as u64 == 0 && TrialState::Pruned as u64 == 1 && TrialState::Failed as u64 == 2);
};

/// Panics where the layouts differ. The comparison is made once.
pub fn check() {
    static AGREE: OnceLock<bool> = OnceLock::new();
    let agree = *AGREE.get_or_init(|| de_marks().marked());
    assert!(
        agree,
        "the linked libemkhurtov.a lays its structs out otherwise than this crate: build both from one tree"
    );
}

/// Memory for a state, zeros in it. It is no sampler's state until it is set up.
pub fn blank_state() -> Box<DeState> {
    // SAFETY: every field is a number, and zeros are a value of each.
    Box::new(unsafe { std::mem::zeroed() })
}

/// A struct whose fields hold the marks that include/emkhurtov.h says (`DeMarks`), as this crate reads it.
trait Marked {
    fn marked(&self) -> bool;
}

impl Marked for DeSetup {
    fn marked(&self) -> bool {
        (self.mutation_factor, self.crossover_rate) == (1.0, 2.0)
            && [self.strategy, self.sized, self.population_size] == [3, 4, 5]
            && [self.seed, self.bounds_rule] == [6, 7]
    }
}

impl Marked for DeDistribution {
    fn marked(&self) -> bool {
        self.kind == 1
            && (self.low, self.high, self.step) == (2.0, 3.0, 8.0)
            && [self.whole_low, self.whole_high, self.whole_step] == [4, 5, 9]
            && [self.log_scale, self.stepped, self.n_choices] == [6, 7, 10]
    }
}

impl Marked for DeCandidate {
    fn marked(&self) -> bool {
        (self.x[0], self.x[MAX_DIMENSIONS - 1]) == (1.0, 2.0)
            && (self.choices[0], self.choices[MAX_DIMENSIONS - 1]) == (3, 4)
    }
}

impl Marked for DeMember {
    fn marked(&self) -> bool {
        self.candidate.marked() && self.value == 1.0
    }
}

impl Marked for DeTrialProgress {
    fn marked(&self) -> bool {
        [self.number, self.next_dim] == [1, 2]
    }
}

impl Marked for DeCall {
    fn marked(&self) -> bool {
        self.trial == 1 && self.distribution.marked()
    }
}

impl Marked for DeAnswer {
    fn marked(&self) -> bool {
        [self.kind, self.refusal, self.choice, self.draws] == [1, 2, 5, 6] && self.real == 3.0 && self.whole == 4
    }
}

impl Marked for DeLook {
    fn marked(&self) -> bool {
        [self.kind, self.refusal, self.best, self.n, self.closed, self.idle] == [1, 2, 3, 4, 5, 6]
            && (self.values[0], self.values[MAX_POPULATION - 1]) == (7.0, 8.0)
    }
}

impl Marked for DeSetting {
    fn marked(&self) -> bool {
        (self.kind, self.real, self.whole, self.choice) == (1, 2.0, 3, 4)
    }
}

impl Marked for DeInternal {
    fn marked(&self) -> bool {
        (self.kind, self.refusal, self.value) == (1, 2, 3.0)
    }
}

impl Marked for DeCompletedTrial {
    fn marked(&self) -> bool {
        (self.number, self.value, self.state) == (1, 2.0, 3)
    }
}

/// An array of structs: its first and last place.
impl<T: Marked, const N: usize> Marked for [T; N] {
    fn marked(&self) -> bool {
        self[0].marked() && self[N - 1].marked()
    }
}

impl Marked for DeState {
    fn marked(&self) -> bool {
        self.setup.marked()
            && [self.named, self.first, self.discovered, self.n, self.n_dims] == [1, 2, 3, 4, 5]
            && self.dims.marked()
            && self.candidates.marked()
            && self.parents.marked()
            && self.n_trials == 6
            && self.trials.marked()
            && [self.best, self.word, self.closed.into(), self.idle.into()] == [7, 8, 9, 10]
    }
}

impl Marked for DeFile {
    fn marked(&self) -> bool {
        [self.kind, self.refusal, self.length] == [1, 2, 3]
    }
}

impl Marked for DeRead {
    fn marked(&self) -> bool {
        [self.kind, self.refusal, self.count, self.line] == [1, 2, 3, 4]
    }
}

impl Marked for DeCount {
    fn marked(&self) -> bool {
        [self.kind, self.refusal, self.count] == [1, 2, 3]
    }
}

impl Marked for DeMarks {
    fn marked(&self) -> bool {
        (self.setup.marked() && self.after_setup == 1)
            && (self.distribution.marked() && self.after_distribution == 2)
            && (self.call.marked() && self.after_call == 3)
            && (self.answer.marked() && self.after_answer == 4)
            && (self.look.marked() && self.after_look == 5)
            && (self.setting.marked() && self.after_setting == 6)
            && (self.internal.marked() && self.after_internal == 7)
            && (self.trial.marked() && self.after_trial == 8)
            && (self.state.marked() && self.after_state == 9)
            && (self.file.marked() && self.after_file == 10)
            && (self.read.marked() && self.after_read == 11)
            && (self.count.marked() && self.after_count == 12)
    }
}

#[cfg(test)]
mod tests {
    use super::*;

    #[test]
    fn the_library_is_laid_out_alike() {
        assert!(de_marks().marked());
    }

    #[test]
    fn a_shifted_field_is_noticed() {
        let mut marks = de_marks();
        marks.state.idle += 1;
        assert!(!marks.marked());
        let mut marks = de_marks();
        marks.file.length += 1;
        assert!(!marks.marked());
        let mut marks = de_marks();
        std::mem::swap(&mut marks.read.count, &mut marks.read.line);
        assert!(!marks.marked());
        let mut marks = de_marks();
        std::mem::swap(&mut marks.count.refusal, &mut marks.count.count);
        assert!(!marks.marked());
        let mut marks = de_marks();
        marks.after_count -= 1;
        assert!(!marks.marked());
        let mut marks = de_marks();
        std::mem::swap(&mut marks.distribution.low, &mut marks.distribution.high);
        assert!(!marks.marked());
        let mut marks = de_marks();
        std::mem::swap(&mut marks.trial.number, &mut marks.trial.state);
        assert!(!marks.marked());
        let mut marks = de_marks();
        std::mem::swap(&mut marks.setup.seed, &mut marks.setup.bounds_rule);
        assert!(!marks.marked());
        let mut marks = de_marks();
        marks.state.setup.bounds_rule = marks.state.named;
        assert!(!marks.marked());
    }
}
