//! `from_triplets` and `validate` of both kinds, small, of middle size and at the limits.

use crate::narrow;
use crate::timing::Times;
use oracle::random::Random;
use oracle::{General, Symmetric};
use suontarvi::sparse;

/// n, and the triplets of the symmetric and the general kind.
const SIZES: [(usize, usize, usize); 3] =
    [(16, 64, 64), (256, 2048, 2048), (4096, 131_072, 262_144)];

/// Triplets in both forms.
struct Triplets {
    n: usize,
    rows: Vec<u32>,
    cols: Vec<u32>,
    wide_rows: Vec<usize>,
    wide_cols: Vec<usize>,
    values: Vec<f64>,
}

/// What our call is lent. A caller lends the same again: the call itself writes what it reads and leaves the
/// work zero, so a timed call has nothing to make ready.
struct Lent {
    col_ptr: Vec<u32>,
    row_idx: Vec<u32>,
    values: Vec<f64>,
    work: Vec<u32>,
}

pub fn run(times: &mut Times) -> bool {
    let mut random = Random::new(1);
    for (n, lower, whole) in SIZES {
        for (order, places) in orders(&mut random, n, lower, true) {
            let name = format!("n {n}, {lower} triplets, {order}");
            symmetric(times, &name, &Triplets::new(n, &places, &mut random));
        }
        for (order, places) in orders(&mut random, n, whole, false) {
            let name = format!("n {n}, {whole} triplets, {order}");
            general(times, &name, &Triplets::new(n, &places, &mut random));
        }
    }
    true
}

/// Pairs of column and row, on or below the diagonal if `lower`: at random, the same sorted, and all in one
/// column, where rows repeat.
fn orders(
    random: &mut Random,
    n: usize,
    count: usize,
    lower: bool,
) -> [(&'static str, Vec<(usize, usize)>); 3] {
    let mut place = || match (random.below(n), random.below(n)) {
        (a, b) if lower => (a.min(b), a.max(b)),
        pair => pair,
    };
    let places: Vec<_> = (0..count).map(|_| place()).collect();
    let one_column = places.iter().map(|&(_, row)| (0, row)).collect();
    let mut sorted = places.clone();
    sorted.sort_unstable();
    [
        ("random", places),
        ("sorted", sorted),
        ("one column", one_column),
    ]
}

impl Triplets {
    fn new(n: usize, places: &[(usize, usize)], random: &mut Random) -> Triplets {
        let wide_rows: Vec<usize> = places.iter().map(|&(_, row)| row).collect();
        let wide_cols: Vec<usize> = places.iter().map(|&(col, _)| col).collect();
        Triplets {
            n,
            rows: narrow(&wide_rows),
            cols: narrow(&wide_cols),
            wide_rows,
            wide_cols,
            values: places.iter().map(|_| random.spread(20)).collect(),
        }
    }
}

impl Lent {
    fn new(n: usize, count: usize) -> Lent {
        Lent {
            col_ptr: vec![0; n + 1],
            row_idx: vec![0; count],
            values: vec![0.0; count],
            work: vec![0; 2 * n + 2 + count],
        }
    }
}

/// The two runs of one kind, on triplets and on the matrix that they make.
macro_rules! kind {
    ($name:ident, $text:literal, $original:ident, $assemble:path, $validate:path) => {
        fn $name(times: &mut Times, name: &str, triplets: &Triplets) {
            let Triplets {
                rows, cols, values, ..
            } = triplets;
            let n = triplets.n;
            let mut lent = Lent::new(n, rows.len());
            let ours = || {
                let Lent {
                    col_ptr,
                    row_idx,
                    values: sums,
                    work,
                } = &mut lent;
                $assemble(n as u32, rows, cols, values, col_ptr, row_idx, sums, work)
                    .expect("the triplets are taken")
            };
            let original = || {
                $original::from_triplets(n, &triplets.wide_rows, &triplets.wide_cols, values)
                    .expect("the triplets are taken")
            };
            times.add(concat!("from_triplets, ", $text), name, ours, original);
            let matrix = original();
            let (col_ptr, rows) = (narrow(matrix.col_ptr()), narrow(matrix.row_idx()));
            let ours = || $validate(n as u32, &col_ptr, &rows, matrix.values());
            assert!(ours().is_ok() && matrix.validate().is_ok());
            times.add(concat!("validate, ", $text), name, ours, || {
                matrix.validate()
            });
        }
    };
}

kind!(
    symmetric,
    "symmetric",
    Symmetric,
    sparse::triplets_symmetric,
    sparse::validate_symmetric
);
kind!(
    general,
    "general",
    General,
    sparse::triplets_general,
    sparse::validate_general
);
