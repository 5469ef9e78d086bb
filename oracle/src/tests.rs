//! Document 01's bench figures on the Rust itself, the table of refusals, and the language's edges.

use crate::compare::expected;
use crate::distribution::Distribution;
use crate::driver::Driver;
use crate::generate::distributions::{choice, float, int};
use crate::generate::malformed;
use crate::generate::stream::Stream;
use crate::judge;
use crate::param::ParamValue;
use crate::rng_util::f64_range;
use crate::sampler::common::{from_internal, internal_bounds, sample_random, to_internal};
use crate::sampler::de::DESampler;
use crate::sampler::{CompletedTrial, Sampler};
use crate::script::SetUp;

fn answers(script: &str) -> String {
    String::from_utf8(expected(&mut Driver::default(), script.as_bytes())).unwrap()
}

#[test]
fn decoding_as_in_the_bench_figures() {
    let quarter = float(0.0, 1.0, Some(0.25));
    assert_eq!(from_internal(0.625, &quarter), ParamValue::Float(0.75));
    let four = int(1, 11, Some(4));
    assert_eq!(from_internal(11.0, &four), ParamValue::Int(11));
    assert_eq!(from_internal(8.0, &four), ParamValue::Int(9));
    let plain = int(-10, 10, None);
    assert_eq!(from_internal(-2.5, &plain), ParamValue::Int(-3));
    assert_eq!(from_internal(2.5, &plain), ParamValue::Int(3));
    assert_eq!(from_internal(0.49999999999999994, &plain), ParamValue::Int(0));
}

#[test]
fn mapping_to_doubles() {
    assert_eq!(
        internal_bounds(&int(-3, 1 << 53, None)),
        Some((-3.0, 9_007_199_254_740_992.0))
    );
    assert_eq!(internal_bounds(&choice(3)), None);
    assert_eq!(to_internal(&ParamValue::Int(7), &int(0, 9, None)), 7.0);
    assert_eq!(to_internal(&ParamValue::Categorical(1), &choice(3)), 0.0);
}

/// The word before an output whose unit is at least 0.75, so that the range 1..1 + 2^-52 reaches its high.
#[test]
fn a_range_reaches_its_high_by_rounding() {
    let high = 1.0 + f64::EPSILON;
    let reached = (0..64).any(|seed| f64_range(&mut fastrand::Rng::with_seed(seed), 1.0, high) == high);
    assert!(reached);
}

#[test]
fn each_random_answer_is_one_draw() {
    for d in [
        float(0.0, 1.0, None),
        float(0.0, 1.0, Some(0.3)),
        int(1, 9, None),
        int(1, 9, Some(4)),
        choice(1),
    ] {
        let mut rng = fastrand::Rng::with_seed(3);
        sample_random(&mut rng, &d);
        assert_eq!(rng.draws(), 1);
    }
}

#[test]
fn refusals_of_the_table() {
    let mut log = float(1.0, 10.0, None);
    if let Distribution::Float(d) = &mut log {
        d.log_scale = true;
    }
    let top = 1i64 << 53;
    let past = 1e300f64.next_up();
    for (d, k) in [
        (int(3, 2, None), Some(4)),
        (int(-top, top, None), None),
        (int(-top - 1, 0, None), Some(4)),
        (int(i64::MIN, 0, None), Some(4)),
        (float(-1e300, 1e300, None), None),
        (float(0.0, past, None), Some(4)),
        (float(f64::NAN, 1.0, None), Some(4)),
        (float(0.0, -0.0, None), None),
        (log, Some(5)),
        (int(1, 9, Some(0)), Some(6)),
        (int(1, 9, Some(top)), None),
        (int(1, 9, Some(top + 1)), Some(6)),
        (float(0.0, 4_294_967_295.0, Some(1.0)), None),
        (float(0.0, 4_294_967_296.0, Some(1.0)), Some(6)),
        (float(1.0, 1.0, Some(5e-324)), None),
        (float(0.0, 1.0, Some(f64::INFINITY)), Some(6)),
        (choice(0), Some(7)),
        (choice(65_535), None),
        (choice(65_536), Some(7)),
    ] {
        assert_eq!(judge::distribution(&d), k, "{d:?}");
    }
    let setup = |f, cr, size| SetUp {
        f,
        cr,
        strategy: Default::default(),
        size,
        seed: 0,
        rule: Default::default(),
    };
    assert_eq!(judge::set_up(&setup(2.5, -0.1, Some(161))), Some(1));
    assert_eq!(judge::set_up(&setup(f64::NAN, 0.5, None)), Some(1));
    assert_eq!(judge::set_up(&setup(2.0, -0.1, Some(161))), Some(2));
    assert_eq!(judge::set_up(&setup(-0.0, 1.0, Some(161))), Some(3));
    assert_eq!(judge::set_up(&setup(0.0, -0.0, Some(160))), None);
}

#[test]
fn a_malformed_line_ends_the_run() {
    let new = "new 3fe0000000000000 3feccccccccccccd rand1 4 1\n";
    assert_eq!(
        answers("tell 1 0000000000000000\nclear\n\n# x\nlook\nlook\n"),
        "malformed 5\n"
    );
    assert_eq!(answers(&format!("{new}look\nlook")), "new\nlook -\nmalformed 3\n");
    assert_eq!(
        answers(&format!(
            "{new}new 4004000000000000 3feccccccccccccd rand1 4 1\nstate\n"
        )),
        "new\nrefused 1\nmalformed 3\n"
    );
    let told = "tell 7 3ff0000000000000\n".repeat(65_536);
    assert_eq!(answers(&format!("{new}{told}look\n")), "new\nlook -\n");
    assert_eq!(
        answers(&format!("{new}{told}tell 7 0000000000000000\n")),
        "new\nmalformed 65538\n"
    );
}

#[test]
fn a_fresh_state_and_the_first_dimension() {
    let script = "new 3fe0000000000000 3feccccccccccccd best1 - 1234567\nstate\nsample 9 choice 1000\nstate\nlook\n";
    // The first published output of seed 1234567 is 6457827717110365317.
    assert_eq!(
        answers(script),
        "new\nstate discovery - 0 0 0 000000000012d687\nchoice 317 1\nstate discovery 9 0 1 0 9e3779b97f5d529c\nlook -\n"
    );
}

/// Four slots, one choice: the results 5, 3, 4, 3, then larger ones, ties, a slot that becomes smaller and stays above the
/// least, and a smaller least: idle generations are counted, and the last is none.
#[test]
fn closings_and_the_counters() {
    let mut script = String::from("new 3fe0000000000000 3feccccccccccccd rand1 4 1\nsample 0 choice 3\n");
    let mut trial = 1;
    for results in [
        [5.0, 3.0, 4.0, 3.0],
        [6.0, 3.5, 4.5, 3.5],
        [6.0, 3.0, 5.0, 4.0f64],
        [4.0, 9.0, 9.0, 9.0],
        [9.0, 9.0, 2.0, 9.0],
    ] {
        for result in results {
            script += &format!("sample {trial} choice 3\ntell {trial} {:016x}\n", result.to_bits());
            trial += 1;
        }
        script += &format!("sample {trial} choice 3\nlook\n");
    }
    let answers = answers(&script);
    let looks: Vec<&str> = answers.lines().filter(|line| line.starts_with("look")).collect();
    let values = "4014000000000000 4008000000000000 4010000000000000 4008000000000000";
    assert_eq!(
        looks,
        [
            format!("look 1 1 0 {values}"),
            format!("look 1 2 1 {values}"),
            format!("look 1 3 2 {values}"),
            "look 1 4 3 4010000000000000 4008000000000000 4010000000000000 4008000000000000".into(),
            "look 2 5 0 4010000000000000 4008000000000000 4000000000000000 4008000000000000".into(),
        ]
    );
}

/// Four slots, one choice. An incomplete entry counts as +infinity whatever its value is, the last entry of a number counts
/// whatever its state is, and refusal 8 is for complete entries alone.
#[test]
fn incomplete_entries_count_as_infinity() {
    let script = "new 3fe0000000000000 3feccccccccccccd rand1 4 1\nsample 0 choice 3\nsample 1 choice 3\n\
        sample 2 choice 3\nsample 3 choice 3\nsample 4 choice 3\n\
        tell 1 c024000000000000 pruned\ntell 2 4008000000000000 failed\ntell 2 4014000000000000\n\
        tell 3 3ff0000000000000 complete\ntell 3 bff0000000000000 failed\ntell 4 7ff8000000000000 failed\n\
        sample 5 choice 3\nlook\ntell 6 7ff8000000000000\ntell 6 3ff0000000000000 failed\nsample 6 choice 3\n";
    let answers = answers(script);
    let last: Vec<&str> = answers.lines().skip(7).collect();
    assert_eq!(
        last,
        [
            "look 1 1 0 7ff0000000000000 4014000000000000 7ff0000000000000 7ff0000000000000",
            "refused 8"
        ]
    );
}

/// 64 extras pass and the 65th is refused; 16 dimensions pass and the 17th is refused.
#[test]
fn the_65th_extra_and_the_17th_dimension() {
    let mut script = String::from("new 3fe0000000000000 3feccccccccccccd rand1 4 1\n");
    script += &"sample 0 choice 3\n".repeat(17);
    for trial in 1..=69 {
        script += &format!("sample {trial} choice 3\n");
    }
    let answers = answers(&script);
    let refused: Vec<usize> = (0..answers.lines().count())
        .filter(|&i| answers.lines().nth(i).unwrap().starts_with("refused"))
        .collect();
    assert_eq!(refused, [17, 86]);
    assert!(answers.contains("refused 9\n") && answers.ends_with("refused 10\n"));
}

/// The Rust has no refusal 10: while one of the first N trials is missing it hands out random candidates for ever.
#[test]
fn the_rust_waits_for_ever_for_a_trial_that_never_reports() {
    let sampler = DESampler::builder().population_size(4).seed(7).build();
    let depth = int(1, 64, None);
    let mut history = Vec::new();
    for trial in 0..2_000 {
        sampler.sample(&depth, trial, &history);
        if trial != 4 {
            history.push(CompletedTrial { id: trial, value: 1.0 });
        }
    }
    assert_eq!(sampler.probe().trials().len(), 1_999);
    assert!(sampler.probe().values().is_empty());
    history.push(CompletedTrial {
        id: 4,
        value: f64::INFINITY,
    });
    sampler.sample(&depth, 2_000, &history);
    assert_eq!(sampler.probe().values(), [1.0, 1.0, 1.0, f64::INFINITY]);
}

/// The generator's ledger and the Rust agree on what is accepted and on what closes.
#[test]
fn sections_are_what_their_ledger_says() {
    let mut stream = Stream::new(11, 20_000);
    let mut driver = Driver::default();
    for section in stream.by_ref() {
        expected(&mut driver, &section);
    }
    assert_eq!(driver.counts.calls, stream.calls);
    assert_eq!(driver.counts.closings, stream.closed);
    assert!(driver.counts.closings > stream.calls / 30);
    assert!(driver.counts.restarted > stream.calls / 100);
    for script in malformed::scripts(1, 50) {
        expected(&mut Driver::default(), &script);
    }
}
