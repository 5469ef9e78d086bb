//! Short campaigns under each way of sharing the sampler.

use super::*;

fn plan(sharing: Sharing, gap: u64) -> Plan {
    Plan {
        sharing,
        gap,
        generations: 6,
    }
}

/// The callers' rule: what is counted was measured with its vector, every time.
#[test]
fn one_lock_and_one_history_leave_no_slot_wrong() {
    for seed in 1..4 {
        let outcome = campaign(plan(Sharing::TrialOneHistory, RUN / 5), seed);
        assert_eq!((outcome.dims, outcome.wrong), (DIMS, 0));
        assert_eq!(outcome.counted, [(0, 0), (6 * SLOTS as u64, 0), (0, 0)]);
        assert_eq!(outcome.best.0, outcome.best.1);
    }
}

/// Without it some are wrong, and those are the trials with fewer than D calls.
#[test]
fn a_lock_alone_leaves_slots_wrong() {
    let outcome = campaign(plan(Sharing::Trial, RUN / 5), 1);
    let [fewer, exactly, more] = outcome.counted;
    assert!(outcome.wrong > 0 && fewer.1 > 0);
    assert_eq!((exactly.1, more.0), (0, 0));
}

#[test]
fn workers_that_start_together_cut_discovery_short() {
    assert!(campaign(plan(Sharing::Call, RUN / 50), 1).dims < DIMS);
}

#[test]
fn the_same_seed_gives_the_same_outcome() {
    let twice = [1, 1].map(|seed| campaign(plan(Sharing::CallFirstAlone, RUN / 5), seed));
    assert_eq!(twice[0], twice[1]);
}
