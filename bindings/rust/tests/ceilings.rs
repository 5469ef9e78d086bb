//! How much a call draws, held against the ceilings: those by the states before and after it, and the library's.

use emkhurtov::{CompletedTrial, DEStrategy, Distribution, MAX_DRAWS, Refusal, Sampler, draw_ceiling};

const STRATEGIES: [DEStrategy; 3] = [DEStrategy::Rand1, DEStrategy::Best1, DEStrategy::CurrentToBest1];

#[test]
fn values_by_hand() {
    assert_eq!(MAX_DRAWS, 494_080);
    assert_eq!(
        STRATEGIES.map(|s| draw_ceiling(160, 16, s)),
        [494_080, 330_240, 330_240]
    );
    assert_eq!(STRATEGIES.map(|s| draw_ceiling(4, 1, s)), [12_292, 8_196, 8_196]);
    assert_eq!(STRATEGIES.map(|s| draw_ceiling(20, 2, s)), [61_480, 41_000, 41_000]);
    for strategy in STRATEGIES {
        // Before discovery has ended.
        assert_eq!([0, 1, 16].map(|d| draw_ceiling(0, d, strategy)), [0, 1, 16]);
        // Past a limit, and 4 and 1 in the lower half alone.
        for n in [161, (1 << 32) + 4, u64::MAX] {
            assert_eq!(draw_ceiling(n, 1, strategy), 0);
        }
        for d in [17, (1 << 32) + 1, u64::MAX] {
            assert_eq!((draw_ceiling(0, d, strategy), draw_ceiling(4, d, strategy)), (0, 0));
        }
    }
}

/// What the ceilings read of a state.
struct Seen {
    strategy: u64,
    discovered: bool,
    n: u64,
    n_dims: u64,
    /// The numbers of the open trials.
    trials: Vec<u64>,
}

/// From the places that the header's struct gives the fields.
fn seen(s: &Sampler) -> Seen {
    let bytes = s.state_bytes();
    let number = |at: usize| u64::from_ne_bytes(bytes[at..at + 8].try_into().unwrap());
    let n_trials = number(64096) as usize;
    Seen {
        strategy: number(16),
        discovered: number(72) == 1,
        n: number(80),
        n_dims: number(88),
        trials: (0..n_trials).map(|i| number(64104 + 16 * i)).collect(),
    }
}

/// The most that a call of the trial draws between these two states: the ceilings word for word, without the library.
fn ceiling(before: &Seen, after: &Seen, trial: u64) -> u64 {
    let closes = after.trials.len() < before.trials.len();
    let ends_discovery = !before.discovered && after.discovered;
    if closes || ends_discovery {
        let per_slot = if after.strategy == 0 { 3072 } else { 2048 };
        return after.n * (per_slot + after.n_dims);
    }
    if before.trials.contains(&trial) {
        1
    } else {
        after.n_dims
    }
}

/// A call, held against every ceiling: how much it draws.
fn draws(s: &mut Sampler, d: &Distribution, trial: u64, history: &[CompletedTrial]) -> u64 {
    let before = seen(s);
    let ahead = s.draw_ceiling();
    let draws = s.sample(d, trial, history).unwrap().draws;
    let after = seen(s);
    assert!(draws <= ceiling(&before, &after, trial));
    assert!(draws <= s.draw_ceiling() && draws <= MAX_DRAWS);
    // Once discovery has ended, by the sampler before the call too.
    assert!(!before.discovered || draws <= ahead);
    assert!(!before.discovered || (after.n, after.n_dims) == (before.n, before.n_dims));
    draws
}

/// The three kinds in turn.
fn dimensions(d: usize) -> Vec<Distribution> {
    let kinds = [
        Distribution::float(8.0, 256.0),
        Distribution::int_step(1, 64, 3),
        Distribution::categorical(4),
    ];
    kinds.into_iter().cycle().take(d).collect()
}

/// The calls of a trial after its first: its other dimensions draw nothing, and each call past the last draws once.
fn rest(s: &mut Sampler, dims: &[Distribution], trial: u64, history: &[CompletedTrial]) {
    for d in &dims[1..] {
        assert_eq!(draws(s, d, trial, history), 0);
    }
    assert_eq!(draws(s, &Distribution::float(0.0, 1.0), trial, history), 1);
    assert_eq!(draws(s, &Distribution::categorical(9), trial, history), 1);
}

/// A generation of trials from `trial` on, with the results of the one before; its own results.
fn generation(
    s: &mut Sampler,
    dims: &[Distribution],
    n: u64,
    trial: u64,
    told: &[CompletedTrial],
) -> Vec<CompletedTrial> {
    let mut results = Vec::new();
    for number in trial..trial + n {
        // The first trial's first call has closed the generation before, or has ended discovery.
        if number != trial {
            assert_eq!(draws(s, &dims[0], number, told), 0);
        }
        rest(s, dims, number, told);
        results.push(CompletedTrial::new(number, (number * 7919 % 1009) as f64));
    }
    // One more is an extra: a candidate of its own is drawn, an entry or a choice for each dimension.
    assert_eq!(draws(s, &dims[0], trial + n, told), dims.len() as u64);
    rest(s, dims, trial + n, told);
    results
}

/// Calls that would close the generation and are refused: the generator's word stays, so they have drawn nothing.
fn refusals(s: &mut Sampler, d: &Distribution, trial: u64, results: &[CompletedTrial]) {
    let before = s.state_bytes().to_vec();
    assert_eq!(s.sample(&Distribution::int(2, 1), trial, results), Err(Refusal::Bounds));
    let mut nan = results.to_vec();
    nan[0].value = f64::NAN;
    assert_eq!(s.sample(d, trial, &nan), Err(Refusal::HistoryNan));
    assert!(s.state_bytes() == before);
}

fn campaign(strategy: DEStrategy, n: u64, d: usize, generations: u64) {
    let dims = dimensions(d);
    let builder = Sampler::builder().strategy(strategy).population_size(n).seed(5);
    let mut s = builder.build().unwrap();
    assert_eq!(s.draw_ceiling(), 0);
    for (i, dimension) in dims.iter().enumerate() {
        assert_eq!(draws(&mut s, dimension, 0, &[]), 1);
        assert_eq!(s.draw_ceiling(), i as u64 + 1);
    }
    assert_eq!(draws(&mut s, &dims[0], 1, &[]), n * d as u64);
    assert_eq!(s.draw_ceiling(), draw_ceiling(n, d as u64, strategy));
    let indices = if strategy == DEStrategy::Rand1 { 3 } else { 2 };
    let mut told = Vec::new();
    let mut trial = 1;
    for closed in 1..=generations {
        told = generation(&mut s, &dims, n, trial, &told);
        trial += n + 1;
        refusals(&mut s, &dims[0], trial, &told);
        // Each slot takes one draw for each dimension and at least one for each index.
        assert!(draws(&mut s, &dims[0], trial, &told) >= n * (indices + d as u64));
        assert_eq!(s.look().unwrap().unwrap().closed, closed);
    }
}

#[test]
fn campaigns_keep_to_the_ceilings() {
    for strategy in STRATEGIES {
        campaign(strategy, 4, 1, 300);
        campaign(strategy, 4, 3, 200);
        campaign(strategy, 25, 5, 20);
        campaign(strategy, 160, 16, 3);
    }
}

/// Where every dimension is a choice, a closing draws N x D: it makes random candidates.
#[test]
fn choices_alone() {
    let choice = Distribution::categorical(4);
    let mut s = Sampler::builder().population_size(4).build().unwrap();
    assert_eq!([0, 0, 1].map(|trial| draws(&mut s, &choice, trial, &[])), [1, 1, 8]);
    let results: Vec<_> = (1..5).map(|t| CompletedTrial::new(t, t as f64)).collect();
    assert_eq!([2, 3, 4].map(|trial| draws(&mut s, &choice, trial, &[])), [0, 0, 0]);
    assert_eq!(draws(&mut s, &choice, 5, &results), 8);
}

/// A refused call gives its trial no candidate: the next one draws as a first call does.
#[test]
fn refused_first_calls() {
    let dims = dimensions(2);
    let nan = [CompletedTrial::new(0, f64::NAN)];
    let mut s = Sampler::builder().population_size(4).build().unwrap();
    assert_eq!([0, 1].map(|i| draws(&mut s, &dims[i], 0, &[])), [1, 1]);
    assert_eq!(s.sample(&dims[0], 1, &nan), Err(Refusal::HistoryNan));
    assert_eq!(
        [1, 2, 3, 4].map(|trial| draws(&mut s, &dims[0], trial, &[])),
        [8, 0, 0, 0]
    );
    assert_eq!(s.sample(&dims[0], 5, &nan), Err(Refusal::HistoryNan));
    assert_eq!(draws(&mut s, &dims[0], 5, &[]), 2);
}

/// The call that closes may be that of a trial that has a candidate; it draws for the new generation all the same.
#[test]
fn own_call_closes() {
    let quota = Distribution::float(8.0, 256.0);
    let mut s = Sampler::builder().population_size(4).build().unwrap();
    let discovered = [0, 1, 2, 3, 4].map(|trial| draws(&mut s, &quota, trial, &[]));
    assert_eq!(discovered, [1, 4, 0, 0, 0]);
    let results: Vec<_> = (1..5).map(|t| CompletedTrial::new(t, t as f64)).collect();
    assert!(seen(&s).trials.contains(&3));
    assert!(draws(&mut s, &quota, 3, &results) >= 4 * (3 + 1));
    assert_eq!(seen(&s).trials, [3]);
}

/// N as the documentation has it for those who ask ahead.
#[test]
fn sizes_ahead() {
    let unset = Sampler::builder();
    let cases = [
        (unset, 1, 15),
        (unset, 2, 20),
        (unset, 3, 20),
        (unset, 16, 110),
        (unset.population_size(0), 1, 4),
        (unset.population_size(3), 16, 4),
        (unset.population_size(160), 2, 160),
    ];
    for (builder, d, n) in cases {
        let mut s = builder.build().unwrap();
        let dims = dimensions(d);
        for dimension in &dims {
            draws(&mut s, dimension, 0, &[]);
        }
        assert_eq!(draws(&mut s, &dims[0], 1, &[]), n * d as u64);
        assert_eq!(s.draw_ceiling(), draw_ceiling(n, d as u64, DEStrategy::Rand1));
    }
}
