//! Graph building of both kinds. The logarithm is counted on neither side: ours is lent the logs, and the
//! original, its call of `ln` left out, takes them as its values. Ours tests the matrix, the values and the
//! logs first, the original does not; the original allocates its graph and its work.

use crate::narrow;
use crate::timing::Times;
use oracle::random::Random;
use oracle::{bare_times, General, Symmetric};
use suontarvi::graphs;

/// n, and the entries of a symmetric band's column; the last are the limits.
pub const SIZES: [(usize, usize); 3] = [(16, 4), (256, 8), (4096, 32)];

/// Pointers and rows of a matrix by columns.
pub type Pattern = (Vec<usize>, Vec<usize>);

/// The numbers of a matrix, in both forms.
pub struct Numbers {
    pub values: Vec<f64>,
    pub logs: Vec<f64>,
    /// For the original: the log of each value, with its sign, where ours has the value.
    pub logs_as_values: Vec<f64>,
}

pub fn run(times: &mut Times) -> bool {
    let mut random = Random::new(1);
    for (n, reach) in SIZES {
        let per_mille = 2000 * reach / n;
        for (zeros, none) in [("", 0), (", a tenth zero", 100)] {
            let numbers = |pattern: &Pattern, random: &mut Random| {
                Numbers::new(pattern.1.len(), none, random)
            };
            let band = band(n, |column| column..(column + reach).min(n));
            let name = |pattern: &Pattern, form: &str| {
                format!("n {n}, {} entries, {form}{zeros}", pattern.1.len())
            };
            let input = name(&band, "band");
            symmetric(times, &input, &band, &numbers(&band, &mut random));
            let spread = random.lower_pattern(n, per_mille);
            let input = name(&spread, "random");
            symmetric(times, &input, &spread, &numbers(&spread, &mut random));
            let band = band_about(n, reach);
            let input = name(&band, "band");
            general(times, &input, &band, &numbers(&band, &mut random));
            let spread = random.pattern(n, per_mille);
            let input = name(&spread, "random");
            general(times, &input, &spread, &numbers(&spread, &mut random));
        }
    }
    true
}

/// A band on both sides of the diagonal.
pub fn band_about(n: usize, reach: usize) -> Pattern {
    band(n, |column| {
        column.saturating_sub(reach - 1)..(column + reach).min(n)
    })
}

pub fn band(n: usize, rows: impl Fn(usize) -> std::ops::Range<usize>) -> Pattern {
    let (mut col_ptr, mut row_idx) = (vec![0], Vec::new());
    for column in 0..n {
        row_idx.extend(rows(column));
        col_ptr.push(row_idx.len());
    }
    (col_ptr, row_idx)
}

impl Numbers {
    /// Values above 2 in size, so that no log is 0, and a share of zeros.
    pub fn new(count: usize, zeros: usize, random: &mut Random) -> Numbers {
        let value = |random: &mut Random| match random.chance(zeros) {
            true => 0.0,
            false => random.spread(20) * 2f64.powi(21),
        };
        let values: Vec<f64> = (0..count).map(|_| value(random)).collect();
        let logs = oracle::logs(&values);
        let log_as_value = |(&value, &log): (&f64, &f64)| match value {
            0.0 => 0.0,
            value => f64::copysign(log, value),
        };
        Numbers {
            logs_as_values: values.iter().zip(&logs).map(log_as_value).collect(),
            values,
            logs,
        }
    }
}

/// The run of one kind. A caller lends the same slices again: the call writes what it reads and leaves the
/// work zero, so a timed call has nothing to make ready.
macro_rules! kind {
    ($kind:ident, $text:literal, $original:ident, $ours:path, $bare:path, $places:literal) => {
        fn $kind(times: &mut Times, name: &str, pattern: &Pattern, numbers: &Numbers) {
            let (wide_ptr, wide_rows) = pattern;
            let (n, count) = (wide_ptr.len() - 1, wide_rows.len());
            let (col_ptr, row_idx) = (narrow(wide_ptr), narrow(wide_rows));
            let original = |values: &[f64]| {
                $original::new(n, wide_ptr.clone(), wide_rows.clone(), values.to_vec())
            };
            let (mut graph_ptr, mut graph_rows) = (vec![0; n + 1], vec![0; $places * count]);
            let (mut cost, mut cmax) = (vec![0.0; $places * count], vec![0.0; n]);
            let mut work = vec![0; 2 * n + 2 + count];
            let mut ours = || {
                $ours(
                    n as u32,
                    &col_ptr,
                    &row_idx,
                    &numbers.values,
                    &numbers.logs,
                    &mut graph_ptr,
                    &mut graph_rows,
                    &mut cost,
                    &mut cmax,
                    &mut work,
                )
                .expect("the matrix is taken")
            };
            let bare = original(&numbers.logs_as_values);
            let kept = ours();
            times.add($text, name, ours, || $bare(&bare));
            let (graph, largest) = original(&numbers.values).cost_graph();
            assert_eq!(graph_rows[..kept], narrow(graph.row_idx()));
            assert_eq!(cost[..kept], *graph.cost());
            assert_eq!([&cmax, &$bare(&bare)], [&largest; 2]);
        }
    };
}

kind!(
    symmetric,
    "symmetric_graph",
    Symmetric,
    graphs::symmetric_graph,
    bare_times::symmetric_graph,
    2
);
kind!(
    general,
    "general_graph",
    General,
    graphs::general_graph,
    bare_times::general_graph,
    1
);
