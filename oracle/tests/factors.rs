//! Log factors before `exp`, inf-norm factors and the chooser.

use oracle::random::Random;
use oracle::{Matched, ScalingInfo, ScalingStrategy, Symmetric, NONE};

const SPECIAL: [f64; 14] = [
    0.0,
    -0.0,
    1.0,
    -1.0,
    5e-324,
    708.9999999999999,
    709.0,
    -709.0,
    1418.0,
    -1420.0,
    f64::MAX,
    f64::INFINITY,
    f64::NEG_INFINITY,
    f64::NAN,
];

fn numbers(random: &mut Random, n: usize) -> Vec<f64> {
    let number = |random: &mut Random| match random.chance(300) {
        true => SPECIAL[random.below(SPECIAL.len())],
        false => random.spread(12),
    };
    (0..n).map(|_| number(random)).collect()
}

/// A random partial matching of rows to columns.
fn partial_perm(random: &mut Random, n: usize) -> Vec<usize> {
    let mut perm: Vec<usize> = (0..n).collect();
    for j in (1..n).rev() {
        perm.swap(j, random.below(j + 1));
    }
    for row in &mut perm {
        if random.chance(200) {
            *row = NONE;
        }
    }
    perm
}

fn random_match(random: &mut Random) -> Matched {
    let n = random.below(12);
    let perm = partial_perm(random, n);
    Matched {
        n_matched: perm.iter().filter(|&&row| row != NONE).count(),
        perm,
        u: numbers(random, n),
        v: numbers(random, n),
        cmax: numbers(random, n),
    }
}

fn held(log: f64) -> f64 {
    match log.is_nan() {
        true => 0.0,
        false => log.clamp(-709.0, 709.0),
    }
}

/// The symmetric log factor by SPECIFICATION 7.1.
fn symmetric_by_01(m: &Matched, i: usize) -> f64 {
    let argument = (m.u[i] + m.v[i] - m.cmax[i]) / 2.0;
    let identity = !m.cmax[i].is_finite() || m.perm[i] == NONE || !m.perm.contains(&i);
    if identity || !argument.is_finite() {
        return 0.0;
    }
    held(argument)
}

fn assert_bits(left: &[f64], right: &[f64]) {
    let bits = |list: &[f64]| list.iter().map(|x| x.to_bits()).collect::<Vec<_>>();
    assert_eq!(bits(left), bits(right), "{left:?} {right:?}");
}

fn exp(logs: &[f64]) -> Vec<f64> {
    logs.iter().map(|log| log.exp()).collect()
}

#[test]
fn log_factors_are_those_of_01_and_give_the_unchanged_factors() {
    let mut random = Random::new(4);
    for _ in 0..4000 {
        let m = random_match(&mut random);
        let n = m.perm.len();
        let (logs, info) = m.symmetric_logs();
        let by_01: Vec<f64> = (0..n).map(|i| symmetric_by_01(&m, i)).collect();
        assert_bits(&logs, &by_01);
        assert_bits(&exp(&logs), &m.symmetric_factors().0);
        let expected = match n - m.n_matched {
            0 => ScalingInfo::Applied,
            n_unmatched => ScalingInfo::PartialSingular { n_unmatched },
        };
        assert_eq!(info, expected);

        let (rows, columns) = m.unsymmetric_logs();
        assert_bits(&rows, &m.u.iter().map(|&u| held(u)).collect::<Vec<_>>());
        let by_01: Vec<f64> = (0..n).map(|j| held(m.v[j] - m.cmax[j])).collect();
        assert_bits(&columns, &by_01);
        let (row_factors, column_factors) = m.unsymmetric_factors();
        assert_bits(&exp(&rows), &row_factors);
        assert_bits(&exp(&columns), &column_factors);
    }
}

#[test]
fn the_mc64_choice_gives_the_factors_of_its_matching() {
    let mut random = Random::new(5);
    for _ in 0..200 {
        let n = random.below(20);
        let (col_ptr, row_idx) = random.lower_pattern(n, 250);
        let values = row_idx.iter().map(|_| random.spread(300)).collect();
        let matrix = Symmetric::new(n, col_ptr, row_idx, values);
        let (factors, info) = matrix.scaling(&ScalingStrategy::Mc64Symmetric).unwrap();
        let (logs, log_info) = matrix.matching().symmetric_logs();
        assert_bits(&factors, &exp(&logs));
        assert_eq!(info, log_info);
    }
}

#[test]
fn the_other_choices_give_what_they_name() {
    let matrix = Symmetric::new(2, vec![0, 2, 3], vec![0, 1, 1], vec![4.0, -9.0, 0.25]);
    let choose = |strategy| matrix.scaling(&strategy);
    assert_eq!(choose(ScalingStrategy::InfNorm), Ok(matrix.infnorm()));
    assert_eq!(
        choose(ScalingStrategy::OnePassInfNorm),
        Ok(matrix.onepass())
    );
    let ones = (vec![1.0, 1.0], ScalingInfo::NotApplied);
    assert_eq!(choose(ScalingStrategy::Identity), Ok(ones));
    let external = |factors| ScalingStrategy::External(factors);
    let given = (vec![2.0, 3.0], ScalingInfo::Applied);
    assert_eq!(choose(external(vec![2.0, 3.0])), Ok(given));
    assert_eq!(choose(external(vec![2.0])), Err(3));
}

/// Rows whose maximum is 0, infinite or hidden by a NaN.
#[test]
fn inf_norm_factors_hold_where_the_rules_say() {
    let diagonal = |value| Symmetric::new(1, vec![0, 1], vec![0], vec![value]);
    for value in [0.0, f64::NAN, f64::INFINITY] {
        assert_eq!(diagonal(value).onepass().0, [1.0]);
        assert_eq!(diagonal(value).infnorm().0, [1.0]);
    }
    assert_eq!(diagonal(-4.0).onepass().0, [0.5]);
    // A row's maximum counts the mirrored entry too.
    let matrix = Symmetric::new(2, vec![0, 1, 1], vec![1], vec![16.0]);
    assert_eq!(matrix.onepass().0, [0.25, 0.25]);
    assert_eq!(matrix.infnorm().0, [0.25, 0.25]);
}
