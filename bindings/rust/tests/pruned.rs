//! Trials that were pruned or that failed: what their entries count as, which entry of a number counts, and the state
//! of the entries that an export is read into.

use emkhurtov::{CompletedTrial, DEStrategy, Distribution, Refusal, Sampler, TrialState};

const SLOTS: u64 = 4;
const INFINITY: f64 = f64::INFINITY;
const NAN: f64 = f64::NAN;

fn depth() -> Distribution {
    Distribution::int(1, 64)
}

fn complete(number: u64, value: f64) -> CompletedTrial {
    CompletedTrial::new(number, value)
}

fn pruned(number: u64, value: f64) -> CompletedTrial {
    CompletedTrial::pruned(number, value)
}

fn failed(number: u64, value: f64) -> CompletedTrial {
    CompletedTrial::failed(number, value)
}

/// A sampler whose discovery is over, and the first generation's trials 1 to 4 under way.
fn begun() -> Sampler {
    let mut s = Sampler::builder().population_size(SLOTS).build().unwrap();
    for trial in 0..=SLOTS {
        s.sample(&depth(), trial, &[]).unwrap();
    }
    s
}

/// The slots' values once these entries are lent to the call that closes the first generation.
fn counted(history: &[CompletedTrial]) -> Vec<f64> {
    let mut s = begun();
    s.sample(&depth(), 5, history).unwrap();
    let look = s.look().unwrap().unwrap();
    assert_eq!(look.closed, 1);
    look.values
}

/// An entry's state, and only that, is what its constructor says.
#[test]
fn states() {
    let states = [complete(7, 0.5), pruned(7, 0.5), failed(7, 0.5)].map(|entry| {
        assert_eq!((entry.number, entry.value), (7, 0.5));
        entry.state
    });
    assert_eq!(states, [TrialState::Complete, TrialState::Pruned, TrialState::Failed]);
    assert_eq!(states.map(|state| state as u64), [0, 1, 2]);
    assert_ne!(complete(7, 0.5), failed(7, 0.5));
}

/// A generation closes by incomplete trials as by others, and no value of theirs is the least.
#[test]
fn they_count_as_infinity() {
    let mut s = begun();
    let history = [pruned(1, 0.5), failed(2, NAN), complete(3, 7.0), complete(4, 5.0)];
    for trial in 5..=8 {
        s.sample(&depth(), trial, &history).unwrap();
    }
    let look = s.look().unwrap().unwrap();
    assert_eq!(look.values, [INFINITY, INFINITY, 7.0, 5.0]);
    assert_eq!((look.best, look.closed, look.idle), (3, 1, 0));
    let next = [complete(5, 9.0), failed(6, -INFINITY), pruned(7, -1.0), pruned(8, NAN)];
    s.sample(&depth(), 9, &next).unwrap();
    let look = s.look().unwrap().unwrap();
    assert_eq!(look.values, [9.0, INFINITY, 7.0, 5.0]);
    assert_eq!((look.best, look.closed, look.idle), (3, 2, 1));
}

#[test]
fn the_last_entry_counts() {
    let rows = [
        ([complete(2, 1.0), failed(2, 1.0)], INFINITY),
        ([complete(2, 1.0), pruned(2, NAN)], INFINITY),
        ([failed(2, NAN), complete(2, 1.0)], 1.0),
        ([pruned(2, 1.0), complete(2, 9.0)], 9.0),
        ([pruned(2, 1.0), failed(2, 2.0)], INFINITY),
        ([complete(2, 1.0), complete(2, 3.0)], 3.0),
    ];
    for ([earlier, last], value) in rows {
        let history = [complete(1, 4.0), earlier, complete(3, 6.0), last, complete(4, 8.0)];
        assert_eq!(counted(&history), [4.0, value, 6.0, 8.0]);
    }
}

/// NaN in a complete entry is refusal 8, wherever it stands and whether or not the entry counts; in others it is not.
#[test]
fn nans() {
    let entries = [
        complete(1, 1.0),
        complete(2, 2.0),
        complete(3, 3.0),
        complete(4, 4.0),
        failed(4, 5.0),
    ];
    for at in 0..entries.len() {
        // The entry of a trial that is waited for, or one that nobody asks for.
        for number in [entries[at].number, 77] {
            let mut s = begun();
            let before = s.state_bytes().to_vec();
            let mut history = entries;
            history[at] = complete(number, NAN);
            assert_eq!(s.sample(&depth(), 5, &history), Err(Refusal::HistoryNan));
            assert!(s.state_bytes() == before);
            for entry in [pruned(number, NAN), failed(number, NAN)] {
                history[at] = entry;
                assert!(s.clone().sample(&depth(), 5, &history).is_ok());
            }
        }
    }
}

/// One campaign is told incomplete trials, its twin complete ones of plus infinity: they go on alike, to the last bit.
#[test]
fn as_if_told_infinity() {
    for strategy in [DEStrategy::Rand1, DEStrategy::Best1, DEStrategy::CurrentToBest1] {
        let builder = Sampler::builder().strategy(strategy).population_size(8).seed(3);
        let mut s = builder.build().unwrap();
        let mut twin = s.clone();
        let dimensions = [Distribution::float(-8.0, 8.0), Distribution::categorical(3), depth()];
        let (mut history, mut twins) = (Vec::new(), Vec::new());
        let mut word = 1u64;
        for trial in 0..400 {
            for dimension in &dimensions {
                let expected = twin.sample(dimension, trial, &twins).unwrap();
                assert_eq!(s.sample(dimension, trial, &history), Ok(expected));
                assert!(s.state_bytes() == twin.state_bytes());
            }
            word = word.wrapping_mul(0x5851_f42d_4c95_7f2d).wrapping_add(1);
            let figure = [-INFINITY, NAN, -0.0, 1e300][(word >> 60) as usize % 4];
            let measured = (word >> 33) as f64;
            let (entry, as_complete) = match (word >> 40) % 5 {
                0 => (pruned(trial, figure), complete(trial, INFINITY)),
                1 => (failed(trial, figure), complete(trial, INFINITY)),
                _ => (complete(trial, measured), complete(trial, measured)),
            };
            history.push(entry);
            twins.push(as_complete);
        }
        assert_eq!(s.look(), twin.look());
        assert_eq!(s.look().unwrap().unwrap().closed, 49);
    }
}

/// An incomplete extra frees no slot and takes none.
#[test]
fn extras() {
    let mut s = begun();
    s.sample(&depth(), 5, &[]).unwrap();
    let extra = [failed(5, 0.0), complete(1, 4.0), complete(2, 3.0), complete(3, 2.0)];
    s.sample(&depth(), 6, &extra).unwrap();
    assert_eq!(s.look(), Ok(None));
    // Trial 4 was killed, and nobody told: telling it frees the generation.
    let told = [&extra[..], &[failed(4, NAN)]].concat();
    s.sample(&depth(), 7, &told).unwrap();
    assert_eq!(s.look().unwrap().unwrap().values, [4.0, 3.0, 2.0, INFINITY]);
}

/// What an export's lines are read as is complete, whatever stood in the lent memory; an entry past them is untouched,
/// and so is each on a refusal.
#[test]
fn exports() {
    let text = b"1,3\n2,0.5\n3,2\n4,4\n";
    let read = [complete(1, 3.0), complete(2, 0.5), complete(3, 2.0), complete(4, 4.0)];
    assert_eq!(CompletedTrial::read_export(text).unwrap(), read);
    for stood in [complete(70, 7.25), pruned(70, 7.25), failed(70, 7.25)] {
        let mut lent = [stood; 6];
        assert!(CompletedTrial::read_export_into(text, &mut lent[..3]).is_err());
        assert!(CompletedTrial::read_export_into(&text[..text.len() - 1], &mut lent).is_err());
        assert_eq!(lent, [stood; 6]);
        assert_eq!(CompletedTrial::read_export_into(text, &mut lent), Ok(4));
        assert_eq!(lent[..4], read);
        assert_eq!(lent[4..], [stood; 2]);
        // A killed trial is told behind what was read.
        lent[4] = failed(2, NAN);
        assert_eq!(counted(&lent[..5]), [3.0, INFINITY, 2.0, 4.0]);
    }
}

/// A save and a restore between a generation's entries change nothing.
#[test]
fn a_restart() {
    let history = [pruned(1, 0.5), failed(2, NAN), complete(3, 7.0), complete(4, 5.0)];
    let mut s = begun();
    let mut restored = Sampler::restore(&s.save().unwrap()).unwrap();
    assert_eq!(restored.sample(&depth(), 5, &history), s.sample(&depth(), 5, &history));
    let restored = Sampler::restore(&restored.save().unwrap()).unwrap();
    assert!(restored.state_bytes() == s.state_bytes());
    assert_eq!(restored.look().unwrap().unwrap().values, [INFINITY, INFINITY, 7.0, 5.0]);
}
