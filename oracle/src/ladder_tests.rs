//! The ladder by hand, from document 02, W9.

use crate::compare::expected;
use crate::distribution::Distribution;
use crate::driver::Driver;
use crate::faults::tests::{each_is_noticed, none_shows_without};
use crate::generate::distributions::float;
use crate::generate::exhaustive::STRATEGIES;
use crate::generate::ladders::log;
use crate::judge;
use crate::ladder::{Ends, FAULTS, Fault, HIGHEST, RIGHT, Reading, ends};
use crate::param::ParamValue;
use crate::rungs::{LAST, rung};
use crate::sampler::de::{DESampler, by_ladder};
use crate::sampler::{CompletedTrial, Sampler};

/// R is 2 from p = 256 on, 3 from 406 on, 4 from 512 on, 63 from 1,531 on and 64 from 1,536 on; 7,935 is the last p below 2^31.
#[test]
fn inner_bounds_by_hand() {
    for (ends, expected) in [
        ((1, 64), (0, 1_536)),
        ((1, 1), (0, 0)),
        ((1, 2), (0, 256)),
        ((2, 2), (255, 256)),
        ((2, 3), (255, 406)),
        ((3, 3), (405, 406)),
        ((3, 63), (405, 1_531)),
        ((64, 64), (1_535, 1_536)),
        ((1, HIGHEST), (0, LAST)),
        ((HIGHEST, HIGHEST), (LAST - 1, LAST)),
        // Between R(7,935) = 2,141,676,972 and 2^31.
        ((2_141_676_973, HIGHEST - 1), (LAST - 1, LAST)),
        ((2_141_676_972, HIGHEST), (LAST - 2, LAST)),
    ] {
        assert_eq!(RIGHT.inner_bounds(ends), expected, "{ends:?}");
    }
}

/// The words of document 02, tried on every position, for every number to 2,000 and for those beside each rung.
#[test]
fn inner_bounds_by_trying() {
    let beside = (0..=LAST).step_by(13).flat_map(|p| [rung(p) - 1, rung(p), rung(p) + 1]);
    for number in (1..=2_000)
        .chain(beside)
        .filter(|&number| (1..=HIGHEST).contains(&number))
    {
        let lower = (0..=LAST).rev().find(|&p| rung(p) < number).unwrap_or(0);
        let upper = (0..=LAST).find(|&p| rung(p) >= number).unwrap();
        assert_eq!(RIGHT.inner_bounds((number, number)), (lower, upper), "{number}");
    }
}

/// An entry, low and high, and the number: a half is rounded up, an entry beyond a bound is clamped first, and a rung outside
/// low to high last.
#[test]
fn entries_decoded_by_hand() {
    for (entry, ends, number) in [
        (0.0, (1, 64), 1),
        (255.4999, (1, 64), 1),
        (255.5, (1, 64), 2),
        (256.0, (1, 64), 2),
        (768.0, (1, 64), 8),
        (1_535.4, (1, 64), 63),
        (1_536.0, (1, 64), 64),
        (9_000.0, (1, 64), 64),
        (-7.0, (1, 64), 1),
        (405.0, (3, 64), 3),
        (0.0, (3, 64), 3),
        (7_935.0, (2_147_000_000, 2_147_000_005), 2_147_000_000),
        (7_936.0, (2_147_000_000, 2_147_000_005), 2_147_000_005),
        (7_936.0, (1, HIGHEST), HIGHEST),
    ] {
        assert_eq!(RIGHT.decoded(entry, ends), number, "{entry} {ends:?}");
    }
}

/// The first published output of seed 1234567 is 6457827717110365317. Mod 1,537 it is 1375, and 2^(1375/256) is 41.39.
#[test]
fn a_draw_by_hand() {
    assert_eq!(6_457_827_717_110_365_317u64 % 1_537, 1375);
    let draw = |ends: Ends| RIGHT.drawn(&mut fastrand::Rng::with_seed(1_234_567), ends);
    assert_eq!(draw((1, 64)), 41);
    let script = "new 3fe0000000000000 3feccccccccccccd rand1 4 1234567\nsample 1 int 1 64 log -\n";
    let answers = expected(&mut Driver::default(), script.as_bytes());
    assert_eq!(String::from_utf8(answers).unwrap(), "new\nint 41 1\n");
}

/// Row 5, and that 4 comes before it.
#[test]
fn refusals_of_the_log_flag() {
    let top = 1i64 << 53;
    for (d, k) in [
        (log(1, 64, None), None),
        (log(1, 1, None), None),
        (log(1, HIGHEST, None), None),
        (log(HIGHEST, HIGHEST, None), None),
        (log(0, 64, None), Some(5)),
        (log(0, 0, None), Some(5)),
        (log(-1, 64, None), Some(5)),
        (log(1, HIGHEST + 1, None), Some(5)),
        (log(1, top, None), Some(5)),
        (log(1, 64, Some(1)), Some(5)),
        (log(1, 64, Some(0)), Some(5)),
        (log(1, 64, Some(top + 1)), Some(5)),
        (log(3, 2, None), Some(4)),
        (log(1, top + 1, None), Some(4)),
        (log(3, 2, Some(0)), Some(4)),
    ] {
        assert_eq!(judge::distribution(&d), k, "{d:?}");
    }
}

/// What each wrong reading makes of an entry on which it parts from the right one.
#[test]
fn each_fault_by_hand() {
    for (fault, entry, ends, right, wrong) in [
        (Fault::LowerUp, 1_536.0, (65, 99), 65, 65),
        (
            Fault::LowerUp,
            4_999.0,
            (rung(5_000) - 1, HIGHEST),
            rung(5_000) - 1,
            rung(5_000),
        ),
        (
            Fault::UpperDown,
            9_000.0,
            (1, rung(5_000) - 1),
            rung(5_000) - 1,
            rung(4_999),
        ),
        (Fault::CutOff, 255.75, (1, 64), 2, 1),
        (Fault::Nearest, 150.0, (1, 64), 1, 2),
        (Fault::Unclamped, 405.0, (3, 64), 3, 2),
    ] {
        assert_eq!(RIGHT.decoded(entry, ends), right, "{fault:?}");
        assert_eq!(Reading(Some(fault)).decoded(entry, ends), wrong, "{fault:?}");
    }
}

/// To the Rust as it stands a ladder is lent as a Float from inner bound to inner bound, to the copy as it is: both make the same
/// entries and draws, and what the copy answers from a candidate is the Float's setting decoded.
#[test]
fn the_copy_makes_the_entries_of_a_float() {
    let stand_in = |d: &Distribution| {
        let (lower, upper) = RIGHT.inner_bounds(ends(d).unwrap());
        float(lower as f64, upper as f64, None)
    };
    let ladders = [log(1, 64, None), log(100, 1_000, None), log(HIGHEST - 9, HIGHEST, None)];
    for (seed, strategy) in (0..).zip([STRATEGIES, STRATEGIES].concat()) {
        let of = || {
            DESampler::builder()
                .strategy(strategy)
                .population_size(5)
                .seed(seed)
                .build()
        };
        let (copied, rust) = (of(), of());
        let mut history = Vec::new();
        for trial in 0..60 {
            for d in &ladders {
                let answer = by_ladder::Called(&copied).sample(d, trial, &history);
                let ParamValue::Float(setting) = rust.sample(&stand_in(d), trial, &history) else {
                    panic!("a Float");
                };
                if trial > 0 {
                    assert_eq!(answer, ParamValue::Int(RIGHT.decoded(setting, ends(d).unwrap())));
                }
                let (a, b) = (copied.probe(), rust.probe());
                assert!(a.entries().eq(b.entries()) && a.word() == b.word() && a.draws() == b.draws());
                assert_eq!(a.bounds(), b.bounds());
            }
            let value = (trial * 7_919 % 101) as f64;
            history.push(CompletedTrial { id: trial, value });
        }
        assert!(copied.probe().values().len() == 5);
    }
}

fn faulty(fault: Fault) -> Driver {
    let mut driver = Driver::default();
    driver.ladders = Reading(Some(fault));
    driver
}

/// Where no Int has the log flag the Rust runs as it stands, or for midpoint: no reading of ladders makes a difference.
#[test]
fn without_ladders_nothing_is_read() {
    none_shows_without(b" log ", &FAULTS, faulty);
}

#[test]
fn each_fault_is_noticed() {
    each_is_noticed(&FAULTS, faulty);
}
