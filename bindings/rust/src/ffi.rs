//! The library's own functions and structs (include/emkhurtov.h has what each promises). Numbers stand for cases.

use std::ffi::c_char;

use crate::CompletedTrial;

pub const MAX_DIMENSIONS: usize = 16;
pub const MAX_POPULATION: usize = 160;
pub const MAX_TRIALS: usize = 224;

pub const REFUSED: u64 = 0;
pub const FLOAT: u64 = 1;
pub const INT: u64 = 2;
pub const CHOICE: u64 = 3;
pub const MADE: u64 = 5;
pub const NOTHING: u64 = 6;

pub const LOOK_REFUSED: u64 = 0;
pub const LOOK_NOTHING: u64 = 1;
pub const LOOK_BEST: u64 = 2;

pub const INTERNAL_VALUE: u64 = 1;

pub const SAVED: u64 = 1;
pub const RESTORED: u64 = 2;

pub const READ: u64 = 1;

pub const LISTED: u64 = 1;

pub const BAD_FILE: u64 = 12;
pub const BAD_CONTENT: u64 = 13;
pub const MALFORMED_LINE: u64 = 14;
pub const SHORT_HISTORY: u64 = 15;
pub const UNSWEEPABLE: u64 = 16;
pub const TOO_MANY: u64 = 17;

#[repr(C)]
#[derive(Clone, Copy)]
pub struct DeSetup {
    pub mutation_factor: f64,
    pub crossover_rate: f64,
    pub strategy: u64,
    pub sized: u64,
    pub population_size: u64,
    pub seed: u64,
    pub bounds_rule: u64,
}

#[repr(C)]
#[derive(Clone, Copy)]
pub struct DeDistribution {
    pub kind: u64,
    pub low: f64,
    pub high: f64,
    pub whole_low: i64,
    pub whole_high: i64,
    pub log_scale: u64,
    pub stepped: u64,
    pub step: f64,
    pub whole_step: i64,
    pub n_choices: u64,
}

#[repr(C)]
#[derive(Clone, Copy)]
pub struct DeCandidate {
    pub x: [f64; MAX_DIMENSIONS],
    pub choices: [u16; MAX_DIMENSIONS],
}

#[repr(C)]
#[derive(Clone, Copy)]
pub struct DeMember {
    pub candidate: DeCandidate,
    pub value: f64,
}

#[repr(C)]
#[derive(Clone, Copy)]
pub struct DeTrialProgress {
    pub number: u64,
    pub next_dim: u64,
}

#[repr(C)]
#[derive(Clone, Copy)]
pub struct DeState {
    pub setup: DeSetup,
    pub named: u64,
    pub first: u64,
    pub discovered: u64,
    pub n: u64,
    pub n_dims: u64,
    pub dims: [DeDistribution; MAX_DIMENSIONS],
    pub candidates: [DeCandidate; MAX_TRIALS],
    pub parents: [DeMember; MAX_POPULATION],
    pub n_trials: u64,
    pub trials: [DeTrialProgress; MAX_TRIALS],
    pub best: u64,
    pub word: u64,
    pub closed: u32,
    pub idle: u32,
}

#[repr(C)]
#[derive(Clone, Copy)]
pub struct DeCall {
    pub trial: u64,
    pub distribution: DeDistribution,
}

#[repr(C)]
#[derive(Clone, Copy)]
pub struct DeAnswer {
    pub kind: u64,
    pub refusal: u64,
    pub real: f64,
    pub whole: i64,
    pub choice: u64,
    pub draws: u64,
}

#[repr(C)]
#[derive(Clone, Copy)]
pub struct DeLook {
    pub kind: u64,
    pub refusal: u64,
    pub best: u64,
    pub n: u64,
    pub closed: u64,
    pub idle: u64,
    pub values: [f64; MAX_POPULATION],
}

#[repr(C)]
#[derive(Clone, Copy)]
pub struct DeSetting {
    pub kind: u64,
    pub real: f64,
    pub whole: i64,
    pub choice: u64,
}

#[repr(C)]
#[derive(Clone, Copy)]
pub struct DeInternal {
    pub kind: u64,
    pub refusal: u64,
    pub value: f64,
}

#[repr(C)]
#[derive(Clone, Copy)]
pub struct DeFile {
    pub kind: u64,
    pub refusal: u64,
    pub length: u64,
}

#[repr(C)]
#[derive(Clone, Copy)]
pub struct DeRead {
    pub kind: u64,
    pub refusal: u64,
    pub count: u64,
    pub line: u64,
}

#[repr(C)]
#[derive(Clone, Copy)]
pub struct DeCount {
    pub kind: u64,
    pub refusal: u64,
    pub count: u64,
}

/// `CompletedTrial` in numbers: a mark is none of its states.
#[repr(C)]
#[derive(Clone, Copy)]
pub struct DeCompletedTrial {
    pub number: u64,
    pub value: f64,
    pub state: u64,
}

/// One of each struct, its fields numbered (layout.rs).
#[repr(C)]
pub struct DeMarks {
    pub setup: DeSetup,
    pub after_setup: u64,
    pub distribution: DeDistribution,
    pub after_distribution: u64,
    pub call: DeCall,
    pub after_call: u64,
    pub answer: DeAnswer,
    pub after_answer: u64,
    pub look: DeLook,
    pub after_look: u64,
    pub setting: DeSetting,
    pub after_setting: u64,
    pub internal: DeInternal,
    pub after_internal: u64,
    pub trial: DeCompletedTrial,
    pub after_trial: u64,
    pub state: DeState,
    pub after_state: u64,
    pub file: DeFile,
    pub after_file: u64,
    pub read: DeRead,
    pub after_read: u64,
    pub count: DeCount,
    pub after_count: u64,
}

unsafe extern "C" {
    // A slice of the library is a pointer that is never null and a count.
    pub fn de_sample(state: *mut DeState, call: DeCall, history: *const CompletedTrial, count: usize) -> DeAnswer;
    pub fn de_new(state: *mut DeState, setup: DeSetup) -> DeAnswer;
    pub fn de_look(state: *const DeState) -> DeLook;
    pub fn de_slot_setting(state: *const DeState, slot: u64, dimension: u64) -> DeAnswer;
    pub fn de_save(state: *const DeState, file: *mut u8, room: usize) -> DeFile;
    pub fn de_restore(state: *mut DeState, file: *const u8, length: usize) -> DeFile;
    pub fn de_read_history(text: *const u8, length: usize, history: *mut CompletedTrial, places: usize) -> DeRead;
    pub fn de_sweep(dims: *const DeDistribution, n: usize, out: *mut i64, room: usize) -> DeCount;
    pub safe fn de_to_internal(distribution: DeDistribution, setting: DeSetting) -> DeInternal;
    pub safe fn de_draw_ceiling(n: u64, n_dims: u64, strategy: u64) -> u64;
    pub safe fn de_marks() -> DeMarks;
    // Both are texts that end in a zero and stay.
    pub safe fn de_version() -> *const c_char;
    #[cfg(test)]
    pub safe fn de_refusal_text(refusal: u64) -> *const c_char;
}
