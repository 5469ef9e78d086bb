//! The bounds rule: clamp or midpoint, where they differ, and that a file has no place for midpoint.

use emkhurtov::{BoundsRule, CompletedTrial, DEStrategy, Distribution, FileRefusal, MAX_FILE, Refusal, Sampler};

const SLOTS: u64 = 6;
const RULES: [BoundsRule; 2] = [BoundsRule::Clamp, BoundsRule::Midpoint];
const STRATEGIES: [DEStrategy; 3] = [DEStrategy::Rand1, DEStrategy::Best1, DEStrategy::CurrentToBest1];
/// Where the rule stands in the state, behind the six other fields of the set-up.
const RULE: std::ops::Range<usize> = 48..56;

fn rule_of(s: &Sampler) -> u64 {
    u64::from_ne_bytes(s.state_bytes()[RULE].try_into().unwrap())
}

/// The state without its rule.
fn rest_of(s: &Sampler) -> Vec<u8> {
    let bytes = s.state_bytes();
    [&bytes[..RULE.start], &bytes[RULE.end..]].concat()
}

/// Two Float dimensions and a choice.
const LOW: [f64; 2] = [8.0, -1.0];
const HIGH: [f64; 2] = [256.0, 0.5];

fn dimensions() -> [Distribution; 3] {
    let choice = Distribution::categorical(4);
    [
        Distribution::float(LOW[0], HIGH[0]),
        Distribution::float(LOW[1], HIGH[1]),
        choice,
    ]
}

/// What a trial runs with: its entries, its choice, and how much was drawn for them.
#[derive(Clone, Copy, Debug, PartialEq)]
struct Asked {
    x: [f64; 2],
    choice: u64,
    draws: u64,
}

fn ask(s: &mut Sampler, trial: u64, history: &[CompletedTrial]) -> Asked {
    let answers = dimensions().map(|d| s.sample(&d, trial, history).unwrap());
    let [x, y, choice] = answers.map(|a| a.setting);
    Asked {
        x: [x.as_f64().unwrap(), y.as_f64().unwrap()],
        choice: choice.as_choice().unwrap(),
        draws: answers.iter().map(|a| a.draws).sum(),
    }
}

/// A sampler whose discovery is over, and the first generation's trials under way.
fn begun(rule: BoundsRule, strategy: DEStrategy, seed: u64) -> Sampler {
    let builder = Sampler::builder().population_size(SLOTS).strategy(strategy).seed(seed);
    let mut s = builder.bounds_rule(rule).build().unwrap();
    for trial in 0..=SLOTS {
        ask(&mut s, trial, &[]);
    }
    s
}

fn first_results() -> Vec<CompletedTrial> {
    (1..=SLOTS)
        .map(|t| CompletedTrial::new(t, (t * 7919 % 1009) as f64))
        .collect()
}

#[test]
fn clamp_is_the_default() {
    assert_eq!(BoundsRule::default(), BoundsRule::Clamp);
    let builder = Sampler::builder().seed(7);
    let unset = builder.build().unwrap();
    let [clamp, midpoint] = RULES.map(|rule| builder.bounds_rule(rule).build().unwrap());
    assert!(unset.state_bytes() == clamp.state_bytes());
    assert_eq!([&unset, &clamp, &midpoint].map(rule_of), [0, 0, 1]);
    assert!(rest_of(&clamp) == rest_of(&midpoint));
    // A set-up of midpoint is judged as any other.
    let midpoint = builder.bounds_rule(BoundsRule::Midpoint);
    assert_eq!(
        midpoint.mutation_factor(f64::NAN).build().err(),
        Some(Refusal::MutationFactor)
    );
    assert_eq!(
        midpoint.population_size(161).build().err(),
        Some(Refusal::PopulationSize)
    );
}

/// The first closing of two samplers that differ in the rule alone. Their candidates differ in entries alone, and where
/// they do, clamp's is on a bound and midpoint's halfway between the parent's and that bound.
#[test]
fn they_differ_beyond_the_bounds() {
    let results = first_results();
    for strategy in STRATEGIES {
        let mut differ = [0, 0];
        for seed in 0..200 {
            let [mut clamp, mut midpoint] = RULES.map(|rule| begun(rule, strategy, seed));
            assert_eq!([&clamp, &midpoint].map(rule_of), [0, 1]);
            assert!(rest_of(&clamp) == rest_of(&midpoint));
            for slot in 0..SLOTS {
                let trial = 1 + SLOTS + slot;
                let (c, m) = (ask(&mut clamp, trial, &results), ask(&mut midpoint, trial, &results));
                assert_eq!((c.choice, c.draws), (m.choice, m.draws));
                let parent = clamp.slot_settings(slot as usize).unwrap().unwrap();
                for j in 0..2 {
                    if c.x[j] != m.x[j] {
                        let at_high = c.x[j] == HIGH[j];
                        assert!(at_high || c.x[j] == LOW[j]);
                        assert_eq!(m.x[j], (parent[j].as_f64().unwrap() + c.x[j]) / 2.0);
                        differ[usize::from(at_high)] += 1;
                    }
                }
            }
            assert_eq!([&clamp, &midpoint].map(rule_of), [0, 1]);
            assert_eq!(clamp.look(), midpoint.look());
        }
        assert!(differ[0] > 100 && differ[1] > 100);
    }
}

/// No slot more, none less: each holds the least result that was counted for it, the latest of these, with the settings
/// that it was measured with.
#[test]
fn least_results() {
    for rule in RULES {
        for strategy in STRATEGIES {
            let builder = Sampler::builder().population_size(SLOTS).strategy(strategy).seed(5);
            let mut s = builder.bounds_rule(rule).build().unwrap();
            let mut history = Vec::new();
            let mut asked = Vec::new();
            let mut held: Vec<(f64, Asked)> = Vec::new();
            for trial in 0..1 + 100 * SLOTS {
                let a = ask(&mut s, trial, &history);
                assert!((0..2).all(|j| LOW[j] <= a.x[j] && a.x[j] <= HIGH[j]));
                // The best is near two bounds; many ties.
                let value = ((a.x[0] - 250.0).abs() + 100.0 * (a.x[1] + 0.9).abs()).floor();
                history.push(CompletedTrial::new(trial, value));
                asked.push(a);
                if trial <= SLOTS || (trial - 1) % SLOTS != 0 {
                    continue;
                }
                // This call has closed the generation of the last trials, one for each slot.
                for slot in 0..SLOTS as usize {
                    let counted = (trial - SLOTS) as usize + slot;
                    let result = (history[counted].value, asked[counted]);
                    match held.get_mut(slot) {
                        None => held.push(result),
                        Some(least) if result.0 <= least.0 => *least = result,
                        Some(_) => {}
                    }
                    let settings = s.slot_settings(slot).unwrap().unwrap();
                    let x = [0, 1].map(|j| settings[j].as_f64().unwrap());
                    assert_eq!(
                        (x, settings[2].as_choice()),
                        (held[slot].1.x, Some(held[slot].1.choice))
                    );
                }
                let look = s.look().unwrap().unwrap();
                assert_eq!(look.values, held.iter().map(|least| least.0).collect::<Vec<_>>());
                assert_eq!(look.closed, (trial - 1) / SLOTS);
            }
        }
    }
}

/// 13, before 12, in any room, and nothing is written; the sampler is as it was, and goes on.
#[test]
fn files_have_no_place_for_it() {
    let results = first_results();
    for strategy in STRATEGIES {
        let fresh = RULES.map(|rule| Sampler::builder().bounds_rule(rule).build().unwrap());
        let under_way = RULES.map(|rule| begun(rule, strategy, 3));
        let mut closed = under_way.clone();
        for s in &mut closed {
            ask(s, 1 + SLOTS, &results);
        }
        for [clamp, midpoint] in [fresh, under_way, closed] {
            let before = midpoint.state_bytes().to_vec();
            let length = clamp.save().unwrap().len();
            assert_eq!(midpoint.save(), Err(FileRefusal::BadContent));
            let mut lent = [0xa5; MAX_FILE];
            for room in [0, length - 1, length, MAX_FILE] {
                assert_eq!(midpoint.save_to(&mut lent[..room]), Err(FileRefusal::BadContent));
            }
            assert!(lent.iter().all(|byte| *byte == 0xa5));
            assert_eq!(clamp.save_to(&mut lent[..length - 1]), Err(FileRefusal::BadFile));
            assert!(midpoint.state_bytes() == before && midpoint.look().is_ok());
            // What is restored is clamp.
            let restored = Sampler::restore(&clamp.save().unwrap()).unwrap();
            assert!(rule_of(&restored) == 0 && restored.state_bytes() == clamp.state_bytes());
        }
    }
}
