//! Exponents and their application beside plain Rust versions of the same rules, lent the same slices.

use crate::matching::{spread, Columns, LARGE};
use crate::narrow;
use crate::timing::Times;
use oracle::random::Random;
use std::ops::Range;
use suontarvi::exponents;

/// n, and the entries of each column.
const SIZES: [(usize, usize); 3] = [(16, 4), (256, 8), (LARGE, 64)];

const LIMIT: i32 = 67_108_864;

pub fn run(times: &mut Times) -> bool {
    let mut random = Random::new(1);
    for (n, per_column) in SIZES {
        made(n, &mut random, times);
        applied(
            &spread(n, per_column, 1 << 30, &mut random),
            &mut random,
            times,
        );
    }
    true
}

// ---- exponents from a match

fn made(n: usize, random: &mut Random, times: &mut Times) {
    let mut list = || {
        let whole = |_| (random.bits() >> 30) as f64 - (1u64 << 33) as f64;
        (0..n).map(whole).collect::<Vec<f64>>()
    };
    let (u, v, cmax) = (list(), list(), list());
    let (mut rows, mut columns) = (vec![0; n], vec![0; n]);
    let (mut plain_rows, mut plain_columns) = (vec![0; n], vec![0; n]);
    let proved = |rows: &mut [i32], columns: &mut [i32]| {
        let answer = exponents::exponents(n as u32, &u, &v, &cmax, rows, columns);
        answer.map_or_else(u32::from, |()| 0)
    };
    assert_eq!(
        proved(&mut rows, &mut columns),
        plain_made(n, &u, &v, &cmax, &mut plain_rows, &mut plain_columns)
    );
    assert!(rows == plain_rows && columns == plain_columns);
    times.add(
        "exponents",
        &format!("n {n}"),
        || proved(&mut rows, &mut columns),
        || plain_made(n, &u, &v, &cmax, &mut plain_rows, &mut plain_columns),
    );
}

/// The exponent of a factor that is whole and within the limit.
fn exponent(x: f64) -> Option<i32> {
    let floor = (x / 65_536.0).floor();
    (x.trunc() == x && floor.abs() <= f64::from(LIMIT)).then_some(floor as i32)
}

fn plain_made(
    n: usize,
    u: &[f64],
    v: &[f64],
    cmax: &[f64],
    rows: &mut [i32],
    columns: &mut [i32],
) -> u32 {
    if n > LARGE {
        return 1;
    }
    if [u.len(), v.len(), cmax.len(), rows.len(), columns.len()] != [n; 5] {
        return 3;
    }
    let fine = u.iter().all(|&x| exponent(x).is_some())
        && v.iter().zip(cmax).all(|(v, c)| exponent(v - c).is_some());
    if !fine {
        return 43;
    }
    for (row, &x) in rows.iter_mut().zip(u) {
        *row = exponent(x).unwrap_or(0);
    }
    for ((column, v), c) in columns.iter_mut().zip(v).zip(cmax) {
        *column = exponent(v - c).unwrap_or(0);
    }
    0
}

// ---- exponents applied

/// A matrix with a set of exponents and its opposite: both sides apply one and then the other, which brings it back.
struct Input {
    n: u32,
    col_ptr: Vec<u32>,
    row_idx: Vec<u32>,
    sets: [(Vec<i32>, Vec<i32>); 2],
}

fn applied(columns: &Columns, random: &mut Random, times: &mut Times) {
    let input = Input::new(columns, random);
    let mut ours: Vec<f64> = input.row_idx.iter().map(|_| random.spread(300)).collect();
    let mut plain = ours.clone();
    assert_eq!(input.proved(0, &mut ours), input.plain(0, &mut plain));
    assert!(ours == plain);
    assert_eq!(input.proved(1, &mut ours), input.plain(1, &mut plain));
    assert!(ours == plain);
    let name = format!(
        "n {}, {} entries, there and back",
        input.n,
        input.row_idx.len()
    );
    times.add(
        "apply_exponents",
        &name,
        || input.proved(0, &mut ours) + input.proved(1, &mut ours),
        || input.plain(0, &mut plain) + input.plain(1, &mut plain),
    );
}

impl Input {
    fn new(columns: &Columns, random: &mut Random) -> Input {
        let mut pointers = vec![0];
        for column in columns {
            pointers.push(pointers[pointers.len() - 1] + column.len());
        }
        let rows: Vec<usize> = columns.concat().iter().map(|&(row, _)| row).collect();
        let mut list = || {
            columns
                .iter()
                .map(|_| random.below(400) as i32 - 200)
                .collect::<Vec<i32>>()
        };
        let set = (list(), list());
        let turned = |list: &[i32]| list.iter().map(|e| -e).collect::<Vec<i32>>();
        let opposite = (turned(&set.0), turned(&set.1));
        Input {
            n: columns.len() as u32,
            col_ptr: narrow(&pointers),
            row_idx: narrow(&rows),
            sets: [set, opposite],
        }
    }

    fn proved(&self, which: usize, values: &mut [f64]) -> u32 {
        let (rows, columns) = &self.sets[which];
        let answer =
            exponents::apply_exponents(self.n, &self.col_ptr, &self.row_idx, rows, columns, values);
        answer.map_or_else(u32::from, |()| 0)
    }

    /// 4, then at each entry 5 and 7.
    fn fault(&self) -> u32 {
        let last = self.col_ptr[self.n as usize] as usize;
        let falls = self.col_ptr.windows(2).any(|pair| pair[1] < pair[0]);
        if self.col_ptr[0] != 0 || last != self.row_idx.len() || falls {
            return 4;
        }
        for pair in self.col_ptr.windows(2) {
            let column = &self.row_idx[pair[0] as usize..pair[1] as usize];
            for (at, &row) in column.iter().enumerate() {
                if row >= self.n {
                    return 5;
                }
                if at > 0 && row <= column[at - 1] {
                    return 7;
                }
            }
        }
        0
    }

    fn plain(&self, which: usize, values: &mut [f64]) -> u32 {
        let (rows, columns) = &self.sets[which];
        let n = self.n as usize;
        if n > LARGE {
            return 1;
        }
        if self.row_idx.len() > 262_144 {
            return 2;
        }
        if self.col_ptr.len() != n + 1
            || values.len() != self.row_idx.len()
            || [rows.len(), columns.len()] != [n; 2]
        {
            return 3;
        }
        let fault = self.fault();
        if fault != 0 {
            return fault;
        }
        if rows
            .iter()
            .chain(columns)
            .any(|e| !(-LIMIT..=LIMIT).contains(e))
        {
            return 43;
        }
        if self.leaves_range(which, values) {
            return 46;
        }
        self.scale(which, values);
        0
    }

    /// The places of each column, and its exponent.
    fn columns(&self, which: usize) -> impl Iterator<Item = (Range<usize>, i32)> + '_ {
        let span = |pair: &[u32]| pair[0] as usize..pair[1] as usize;
        let exponents = self.sets[which].1.iter().copied();
        self.col_ptr.windows(2).map(span).zip(exponents)
    }

    fn leaves_range(&self, which: usize, values: &[f64]) -> bool {
        let rows = &self.sets[which].0;
        let fits = |x: f64, shift: i32| x == 0.0 || x.is_normal() && ldexp(x, shift).is_normal();
        self.columns(which).any(|(span, exponent)| {
            let mut entries = values[span.clone()].iter().zip(&self.row_idx[span]);
            entries.any(|(&x, &row)| !fits(x, rows[row as usize] + exponent))
        })
    }

    fn scale(&self, which: usize, values: &mut [f64]) {
        let rows = &self.sets[which].0;
        for (span, exponent) in self.columns(which) {
            for (x, &row) in values[span.clone()].iter_mut().zip(&self.row_idx[span]) {
                *x = ldexp(*x, rows[row as usize] + exponent);
            }
        }
    }
}

/// x times 2 ^ shift: by two factors, so that neither leaves the range where the product does not.
fn ldexp(x: f64, shift: i32) -> f64 {
    let power = |e: i32| f64::from_bits(((e + 1023) as u64) << 52);
    let shift = shift.clamp(-2044, 2046);
    x * power(shift / 2) * power(shift - shift / 2)
}
