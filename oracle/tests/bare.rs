//! The copy without `ln` and `exp`, which is timed: given logs, it does the original's work.

use oracle::bare_times::{general_graph, symmetric_graph, Cache};
use oracle::random::Random;
use oracle::{logs, General, Matched, Symmetric};

/// Values above 2 in size, whose logs are not 0, and some zeros.
fn values(random: &mut Random, count: usize) -> Vec<f64> {
    let value = |random: &mut Random| match random.chance(100) {
        true => 0.0,
        false => random.spread(20) * 2f64.powi(21),
    };
    (0..count).map(|_| value(random)).collect()
}

/// The logs of the values, of either sign; zeros stay.
fn as_values(values: &[f64]) -> Vec<f64> {
    let log = |(&value, log): (&f64, f64)| match value {
        0.0 => 0.0,
        value => log.copysign(value),
    };
    values.iter().zip(logs(values)).map(log).collect()
}

#[test]
fn graphs_of_logs_have_the_largest_logs_of_the_original() {
    let mut random = Random::new(6);
    for _ in 0..200 {
        let n = random.below(20);
        let (ptr, rows) = random.lower_pattern(n, 300);
        let values = values(&mut random, rows.len());
        let matrix = |values| Symmetric::new(n, ptr.clone(), rows.clone(), values);
        let bare = symmetric_graph(&matrix(as_values(&values)));
        assert_eq!(bare, matrix(values.clone()).cost_graph().1);
        let matrix = |values| General::new(n, ptr.clone(), rows.clone(), values);
        let bare = general_graph(&matrix(as_values(&values)));
        assert_eq!(bare, matrix(values).cost_graph().1);
    }
}

#[test]
fn factors_are_the_logs_with_0_rewritten() {
    let mut random = Random::new(7);
    for n in 0..200 {
        let mut numbers = || (0..n).map(|_| random.spread(12)).collect();
        let matched = Matched {
            perm: (0..n).rev().collect(),
            u: numbers(),
            v: numbers(),
            cmax: numbers(),
            n_matched: n,
        };
        let rewritten = |logs: Vec<f64>| -> Vec<f64> {
            let log = |log| if log == 0.0 { 1.0 } else { log };
            logs.into_iter().map(log).collect()
        };
        let cache = Cache::from(matched.clone());
        assert_eq!(cache.symmetric().0, rewritten(matched.symmetric_logs().0));
        let (rows, columns) = matched.unsymmetric_logs();
        assert_eq!(cache.unsymmetric(), (rewritten(rows), rewritten(columns)));
    }
}
