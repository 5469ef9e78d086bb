//! What a sweep refuses, and in which order, held against a second reading of document 02 (W10).

mod second_sweep;

use emkhurtov::{Distribution, FloatDistribution, IntDistribution, Refusal, Sweep, SweepRefusal, sweep};
use second_sweep::{LADDER_MOST, MOST, choice, int, stepped, taken, taken_into};

/// A refusal's dimension in each place among others, also behind the 16th: 4 to 7 of the first, then 16, then 17.
#[test]
fn refusals() {
    let float = |low, high, log_scale, step| {
        Distribution::Float(FloatDistribution {
            low,
            high,
            log_scale,
            step,
        })
    };
    let int_log = |low, high, step| {
        Distribution::Int(IntDistribution {
            low,
            high,
            log_scale: true,
            step,
        })
    };
    let refused = [
        (int(3, 2), Refusal::Bounds),
        (int(0, MOST + 1), Refusal::Bounds),
        (int(i64::MIN, i64::MAX), Refusal::Bounds),
        (float(0.0, f64::NAN, false, None), Refusal::Bounds),
        (int_log(1, 0, Some(0)), Refusal::Bounds),
        (int_log(0, 64, None), Refusal::LogScale),
        (int_log(1, LADDER_MOST + 1, None), Refusal::LogScale),
        (int_log(1, 64, Some(1)), Refusal::LogScale),
        (float(1.0, 2.0, true, Some(0.0)), Refusal::LogScale),
        (stepped(1, 9, 0), Refusal::Step),
        (stepped(1, 9, MOST + 1), Refusal::Step),
        (float(0.0, 4_294_967_296.0, false, Some(1.0)), Refusal::Step),
        (choice(0), Refusal::Choices),
        (choice(65_536), Refusal::Choices),
    ];
    let unsweepable = [
        Distribution::float(0.0, 1.0),
        Distribution::float_step(0.0, 1.0, 0.5),
        Distribution::int_log(1, 64),
    ];
    let many = int(0, MOST);
    assert_eq!(taken(&[]), Err(SweepRefusal::Unsweepable));
    assert_eq!(taken_into(&[], 9), Err(SweepRefusal::Unsweepable));
    for n in 1..20 {
        let plain = vec![choice(1); n];
        let sound = if n > 16 { Err(SweepRefusal::Unsweepable) } else { Ok(1) };
        assert_eq!(taken(&plain).map(|all| all.len()), sound);
        for dimension in 0..n {
            let with = |d: Distribution, others: Distribution| {
                let mut dims = vec![others; n];
                dims[dimension] = d;
                dims
            };
            for (d, refusal) in refused {
                let expected = Err(SweepRefusal::Dimension { dimension, refusal });
                for others in [choice(2), many, unsweepable[n % 3]] {
                    assert_eq!(taken(&with(d, others)).map(|_| 0), expected);
                    assert_eq!(taken_into(&with(d, others), 9), expected);
                }
                // The first dimension that has one counts.
                let before = if dimension == 0 { refusal } else { refused[n % 14].1 };
                let first = SweepRefusal::Dimension {
                    dimension: 0,
                    refusal: before,
                };
                assert_eq!(taken(&with(d, refused[n % 14].0)), Err(first));
            }
            for d in unsweepable {
                assert_eq!(taken(&with(d, many)), Err(SweepRefusal::Unsweepable));
                assert_eq!(taken_into(&with(d, choice(2)), 0), Err(SweepRefusal::Unsweepable));
            }
            if n <= 16 {
                assert_eq!(
                    taken_into(&with(choice(2), choice(1)), 2 * n - 1),
                    Err(SweepRefusal::TooMany)
                );
                assert_eq!(taken_into(&with(choice(2), choice(1)), 2 * n), Ok(2));
            }
        }
    }
}

#[test]
fn refusals_say_why() {
    fn shared<T: Send + Sync + Copy + std::error::Error + 'static>() {}
    shared::<SweepRefusal>();
    fn sent<T: Send + Sync + Clone + 'static>() {}
    sent::<Sweep>();
    let refusal = sweep(&[choice(2), stepped(1, 9, 0)]).unwrap_err();
    assert_eq!(
        refusal.to_string(),
        "dimension 1, counted from 0: refusal 6: the step is not finite, not above 0, or gives too many steps"
    );
    assert_eq!(refusal.number(), 6);
    assert_eq!(SweepRefusal::Unsweepable.number(), 16);
    assert_eq!(SweepRefusal::TooMany.number(), 17);
}
