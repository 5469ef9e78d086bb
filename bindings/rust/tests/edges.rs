//! What crosses the boundary, and what must not change there.

use emkhurtov::{
    CategoricalDistribution, CompletedTrial, DEStrategy, Distribution, FloatDistribution, IntDistribution, ParamValue,
    Refusal, Sampler, to_internal,
};

fn sampler(size: u64) -> Sampler {
    Sampler::builder().population_size(size).seed(9).build().unwrap()
}

#[test]
fn set_ups_are_judged_in_order() {
    let refusal = |b: emkhurtov::SamplerBuilder| b.build().err();
    let builder = Sampler::builder;
    assert_eq!(refusal(builder()), None);
    assert_eq!(
        refusal(builder().mutation_factor(2.0).crossover_rate(1.0).population_size(160)),
        None
    );
    assert_eq!(
        refusal(builder().mutation_factor(-0.0).crossover_rate(-0.0).population_size(0)),
        None
    );
    assert_eq!(
        refusal(builder().mutation_factor(2.5).crossover_rate(-0.1)),
        Some(Refusal::MutationFactor)
    );
    assert_eq!(
        refusal(builder().crossover_rate(f64::NAN).population_size(161)),
        Some(Refusal::CrossoverRate)
    );
    assert_eq!(
        refusal(builder().population_size(u64::MAX)),
        Some(Refusal::PopulationSize)
    );
}

#[test]
fn refusals_change_nothing() {
    let mut s = sampler(4);
    let float = |low, high, step| {
        Distribution::Float(FloatDistribution {
            low,
            high,
            log_scale: false,
            step,
        })
    };
    s.sample(&float(0.0, 1.0, None), 0, &[]).unwrap();
    let before = s.state_bytes().to_vec();
    let log = Distribution::Float(FloatDistribution {
        low: 1.0,
        high: 10.0,
        log_scale: true,
        step: None,
    });
    let wide = Distribution::Int(IntDistribution {
        low: i64::MIN,
        high: i64::MAX,
        log_scale: false,
        step: None,
    });
    let cases = [
        (float(f64::NAN, 1.0, None), Refusal::Bounds),
        (float(2.0, 1.0, None), Refusal::Bounds),
        (float(0.0, f64::MAX, None), Refusal::Bounds),
        (float(0.0, 1.0, Some(0.0)), Refusal::Step),
        (float(0.0, 1.0, Some(f64::MIN_POSITIVE)), Refusal::Step),
        (log, Refusal::LogScale),
        (wide, Refusal::Bounds),
        (Distribution::int_step(1, 9, 0), Refusal::Step),
        (
            Distribution::Categorical(CategoricalDistribution { n_choices: 0 }),
            Refusal::Choices,
        ),
        (Distribution::categorical(65_536), Refusal::Choices),
    ];
    for (distribution, refusal) in cases {
        assert_eq!(s.sample(&distribution, 1, &[]), Err(refusal), "{distribution:?}");
    }
    let nan = [CompletedTrial::new(77, f64::NAN)];
    assert_eq!(s.sample(&float(0.0, 1.0, None), 1, &nan), Err(Refusal::HistoryNan));
    assert!(s.state_bytes() == before);
}

#[test]
fn the_17th_dimension_is_refused() {
    let mut s = sampler(4);
    for _ in 0..16 {
        s.sample(&Distribution::categorical(3), 5, &[]).unwrap();
    }
    let before = s.state_bytes().to_vec();
    assert_eq!(
        s.sample(&Distribution::categorical(3), 5, &[]),
        Err(Refusal::Dimensions)
    );
    assert!(s.state_bytes() == before);
    assert!(s.sample(&Distribution::categorical(3), 6, &[]).is_ok());
}

#[test]
fn the_65th_extra_is_refused() {
    let mut s = sampler(4);
    let depth = Distribution::int(1, 64);
    for trial in 0..=4 + 64 {
        s.sample(&depth, trial, &[]).unwrap();
    }
    let before = s.state_bytes().to_vec();
    assert_eq!(s.sample(&depth, 100, &[]), Err(Refusal::ExtraTrials));
    assert!(s.state_bytes() == before);
    // A trial that has its candidate goes on, and a closing makes room.
    assert!(s.sample(&depth, 4, &[]).is_ok());
    let history: Vec<_> = (1..=4)
        .map(|number| CompletedTrial::new(number, number as f64))
        .collect();
    assert!(s.sample(&depth, 100, &history).is_ok());
    let look = s.look().unwrap().unwrap();
    assert_eq!(
        (look.best, look.values, look.closed, look.idle),
        (0, vec![1.0, 2.0, 3.0, 4.0], 1, 0)
    );
}

#[test]
fn kinds_and_steps_cross() {
    let mut s = Sampler::builder().strategy(DEStrategy::Best1).seed(3).build().unwrap();
    for trial in 0..40 {
        let settings = [
            s.sample(&Distribution::float_step(0.0, 1.0, 0.25), trial, &[])
                .unwrap()
                .setting,
            s.sample(&Distribution::int_step(-11, 11, 4), trial, &[])
                .unwrap()
                .setting,
            s.sample(&Distribution::categorical(5), trial, &[]).unwrap().setting,
        ];
        let [ParamValue::Float(x), ParamValue::Int(k), ParamValue::Categorical(c)] = settings else {
            panic!("{settings:?}");
        };
        assert!((0.0..=1.0).contains(&x) && (x * 4.0).fract() == 0.0);
        assert!((-11..=11).contains(&k) && ((k + 11) % 4 == 0 || k == 11));
        assert!(c < 5);
    }
}

#[test]
fn a_clone_goes_on_alike() {
    let mut a = sampler(6);
    let quota = Distribution::float(8.0, 256.0);
    a.sample(&quota, 0, &[]).unwrap();
    let mut b = a.clone();
    for trial in 1..20 {
        assert_eq!(a.sample(&quota, trial, &[]), b.sample(&quota, trial, &[]));
    }
    assert!(a.state_bytes() == b.state_bytes());
}

#[test]
fn internal_values() {
    assert_eq!(
        to_internal(&Distribution::float(0.0, 1.0), ParamValue::Float(0.5)),
        Ok(0.5)
    );
    assert_eq!(to_internal(&Distribution::int(0, 9), ParamValue::Float(0.5)), Ok(0.0));
    assert_eq!(
        to_internal(&Distribution::categorical(3), ParamValue::Categorical(2)),
        Ok(0.0)
    );
    assert_eq!(
        to_internal(&Distribution::int(0, 9), ParamValue::Int(1 << 53)),
        Ok(9_007_199_254_740_992.0)
    );
    assert_eq!(
        to_internal(&Distribution::int(0, 9), ParamValue::Int((1 << 53) + 1)),
        Err(Refusal::Bounds)
    );
    assert_eq!(
        to_internal(&Distribution::categorical(0), ParamValue::Categorical(0)),
        Err(Refusal::Choices)
    );
}

#[test]
fn refusals_say_why() {
    let refusal = Sampler::builder().population_size(161).build().unwrap_err();
    assert_eq!(refusal.number(), 3);
    assert_eq!(refusal.to_string(), "refusal 3: the population size is over 160");
}

/// One trial at a time in a choice, a double and a whole number; `lent` says what part of the history is lent. The
/// sampler at the end, what each trial ran with, and the history.
fn campaign(lent: fn(&[CompletedTrial]) -> &[CompletedTrial]) -> (Sampler, Vec<[ParamValue; 3]>, Vec<CompletedTrial>) {
    let dimensions = [
        Distribution::categorical(4),
        Distribution::float_step(8.0, 256.0, 0.5),
        Distribution::int(1, 64),
    ];
    let mut s = sampler(5);
    let mut tried = Vec::new();
    let mut history = Vec::new();
    for trial in 0..1 + 5 * 20 + 1 {
        let settings = dimensions.map(|d| s.sample(&d, trial, lent(&history)).unwrap().setting);
        let [c, x, k] = settings;
        let (c, x, k) = (c.as_choice().unwrap(), x.as_f64().unwrap(), k.as_i64().unwrap());
        // No two settings measure alike; a killed trial has its last figure.
        let measured = 1000.0 * x + k as f64 + 0.01 * c as f64;
        tried.push(settings);
        history.push(if trial % 17 == 3 {
            CompletedTrial::failed(trial, measured)
        } else {
            CompletedTrial::new(trial, measured)
        });
    }
    (s, tried, history)
}

#[test]
fn slots_hold_what_was_tried() {
    assert_eq!(sampler(5).slot_settings(0), Ok(None));
    let (s, tried, history) = campaign(|history| history);
    let before = s.state_bytes().to_vec();
    let look = s.look().unwrap().unwrap();
    assert_eq!((look.closed, look.values.len()), (20, 5));
    for (slot, value) in look.values.iter().enumerate() {
        // A tie keeps the later trial; the last one's generation is open.
        let trial = history[..history.len() - 1]
            .iter()
            .rposition(|t| t.value == *value)
            .unwrap();
        assert_eq!(s.slot_settings(slot), Ok(Some(tried[trial].to_vec())));
    }
    assert_eq!(s.slot_settings(look.best), Ok(Some(look.settings)));
    assert_eq!(s.slot_settings(5), Ok(None));
    assert_eq!(s.slot_settings(usize::MAX), Ok(None));
    assert!(s.state_bytes() == before);
}

#[test]
fn the_last_n_results_are_enough() {
    let (whole, tried, _) = campaign(|history| history);
    let (last, tried_last, _) = campaign(|history| &history[history.len().saturating_sub(5)..]);
    assert_eq!(tried, tried_last);
    assert!(whole.state_bytes() == last.state_bytes());
}

#[test]
fn the_defaults_are_the_originals() {
    let named = Sampler::builder()
        .mutation_factor(0.8)
        .crossover_rate(0.9)
        .strategy(DEStrategy::Rand1)
        .seed(0);
    let state = |b: emkhurtov::SamplerBuilder| b.build().unwrap().state_bytes().to_vec();
    assert!(state(Sampler::builder()) == state(named));
    assert!(state(named) != state(named.population_size(15)));
}

#[test]
fn the_library_is_of_this_version() {
    assert_eq!(emkhurtov::version(), env!("CARGO_PKG_VERSION"));
}

#[test]
fn threads_may_share_a_sampler() {
    fn shared<T: Send + Sync + Clone + 'static>() {}
    shared::<Sampler>();
    shared::<emkhurtov::SamplerBuilder>();
    shared::<emkhurtov::Look>();
    shared::<Refusal>();
    let (s, _, _) = campaign(|history| history);
    let look = s.look();
    std::thread::scope(|scope| {
        let lookers = [(); 2].map(|()| scope.spawn(|| s.look()));
        for looker in lookers {
            assert_eq!(looker.join().unwrap(), look);
        }
    });
    // Rust's threads have the stack that a call needs; so has one of 1.5 MB.
    let mut moved = s.clone();
    let quota = Distribution::float_step(8.0, 256.0, 0.5);
    let small = std::thread::Builder::new().stack_size(3 << 19);
    let there = small
        .spawn(move || moved.sample(&quota, 500, &[]))
        .unwrap()
        .join()
        .unwrap();
    assert_eq!(there, s.clone().sample(&quota, 500, &[]));
}
