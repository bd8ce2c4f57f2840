//! Log factors of both kinds. The original's call of `exp` is left out, since ours has none; it allocates its
//! factors, ours are lent.

use crate::timing::Times;
use oracle::bare_times::Cache;
use oracle::random::Random;
use oracle::Matched;
use suontarvi::{factors, matching::NONE};

pub fn run(times: &mut Times) -> bool {
    let mut random = Random::new(1);
    for n in [16, 256, 4096] {
        for (text, free) in [("complete", 0), ("a tenth free", 100)] {
            let given = matched(n, free, &mut random);
            let name = format!("n {n}, {text}");
            symmetric(times, &name, &given);
            unsymmetric(times, &name, &given);
        }
    }
    true
}

/// A random permutation without some of its pairs; most factors are not held.
pub fn matched(n: usize, free: usize, random: &mut Random) -> Matched {
    let mut perm: Vec<usize> = (0..n).collect();
    for column in (1..n).rev() {
        perm.swap(column, random.below(column + 1));
    }
    for row in &mut perm {
        if random.chance(free) {
            *row = oracle::NONE;
        }
    }
    let mut numbers = || (0..n).map(|_| random.spread(10)).collect();
    Matched {
        n_matched: perm.iter().filter(|&&row| row != oracle::NONE).count(),
        perm,
        u: numbers(),
        v: numbers(),
        cmax: numbers(),
    }
}

fn symmetric(times: &mut Times, name: &str, given: &Matched) {
    let n = given.perm.len();
    let row = |&row: &usize| match row {
        oracle::NONE => NONE,
        row => row as u32,
    };
    let perm: Vec<u32> = given.perm.iter().map(row).collect();
    let (mut logs, mut work) = (vec![0.0; n], vec![0; n]);
    let mut ours = || {
        factors::log_factors(
            n as u32,
            given.n_matched as u32,
            &perm,
            &given.u,
            &given.v,
            &given.cmax,
            &mut logs,
            &mut work,
        )
        .expect("the match is taken")
    };
    let original = Cache::from(given.clone());
    times.add("log_factors", name, &mut ours, || original.symmetric());
    assert_eq!(logs, given.symmetric_logs().0, "the same work is timed");
    logs.fill(1.0);
    let mut by_rule = || {
        factors::log_factors_by_rule(
            factors::Rule::Identity,
            n as u32,
            given.n_matched as u32,
            &perm,
            &given.u,
            &given.v,
            &given.cmax,
            &[],
            &[],
            &[],
            &[],
            &mut logs,
            &mut work,
        )
        .expect("the match is taken")
    };
    times.add("log_factors_by_rule, identity", name, &mut by_rule, || {
        original.symmetric()
    });
    assert_eq!(logs, given.symmetric_logs().0, "the same work is timed");
}

fn unsymmetric(times: &mut Times, name: &str, given: &Matched) {
    let n = given.perm.len();
    let (mut rows, mut columns) = (vec![0.0; n], vec![0.0; n]);
    let mut ours = || {
        factors::unsymmetric_factors(
            n as u32,
            &given.u,
            &given.v,
            &given.cmax,
            &mut rows,
            &mut columns,
        )
        .expect("the match is taken")
    };
    let original = Cache::from(given.clone());
    times.add("unsymmetric_factors", name, &mut ours, || {
        original.unsymmetric()
    });
    assert_eq!(
        (rows, columns),
        given.unsymmetric_logs(),
        "the same work is timed"
    );
}
