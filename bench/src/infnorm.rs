//! Inf-norm factors, iterated and one-pass. Ours tests the matrix first, the original does not; it allocates its
//! factors and its maxima, ours are lent.

use crate::graphs::{band, Pattern};
use crate::narrow;
use crate::timing::Times;
use oracle::random::Random;
use oracle::Symmetric;
use suontarvi::scaling;

/// What the values are, and one of them.
type Values = (&'static str, fn(&mut Random) -> f64);

/// Most of these take all ten rounds, equal ones as few as one.
const VALUES: [Values; 4] = [
    ("well scaled", |random| random.spread(1)),
    ("huge range", |random| random.spread(1000)),
    ("many equal", |random| {
        [1.0, -1.0, 2.0, 4.0][random.below(4)]
    }),
    ("all 1", |_| 1.0),
];

pub fn run(times: &mut Times) -> bool {
    let mut random = Random::new(1);
    let sizes = [(16, 4, 1), (256, 8, 1), (4096, 2, 4), (4096, 32, 4)];
    for (n, reach, kinds) in sizes {
        for (kind, value) in &VALUES[..kinds] {
            let patterns = [
                ("band", band(n, |column| column..(column + reach).min(n))),
                ("random", random.lower_pattern(n, (2000 * reach / n).max(1))),
            ];
            for (form, pattern) in patterns {
                let count = pattern.1.len();
                let values: Vec<f64> = (0..count).map(|_| value(&mut random)).collect();
                let name = format!("n {n}, {count} entries, {form}, {kind}");
                both(times, &name, &pattern, &values);
            }
        }
    }
    true
}

/// Times both calls on one matrix.
fn both(times: &mut Times, name: &str, pattern: &Pattern, values: &[f64]) {
    let (wide_ptr, wide_rows) = pattern;
    let n = wide_ptr.len() - 1;
    let (col_ptr, row_idx) = (narrow(wide_ptr), narrow(wide_rows));
    let original = Symmetric::new(n, wide_ptr.clone(), wide_rows.clone(), values.to_vec());
    let (mut factors, mut work) = (vec![0.0; n], vec![0.0; n]);
    let mut iterated = || {
        scaling::infnorm(
            n as u32,
            &col_ptr,
            &row_idx,
            values,
            &mut factors,
            &mut work,
        )
        .expect("the matrix is taken")
    };
    times.add("infnorm", name, &mut iterated, || original.infnorm());
    assert_eq!(factors, original.infnorm().0, "the same work is timed");
    let mut one_pass = || {
        scaling::onepass(n as u32, &col_ptr, &row_idx, values, &mut factors)
            .expect("the matrix is taken")
    };
    times.add("onepass", name, &mut one_pass, || original.onepass());
    assert_eq!(factors, original.onepass().0, "the same work is timed");
}
