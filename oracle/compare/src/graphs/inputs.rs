//! Random matrices with their logs and the lent slices, whole or damaged at a few rules.

use super::expected::kept;
use crate::numbers::{contents, doubles, other_length};
use crate::range::{above, last_log, sizes};
use crate::sparse::inputs::Matrix;
use crate::sparse::{narrow, Kind};
use oracle::random::Random;

/// The arguments of a call.
#[derive(Clone, Debug)]
pub struct Call {
    pub matrix: Matrix,
    pub logs: Vec<f64>,
    pub graph_ptr: Vec<u32>,
    pub graph_rows: Vec<u32>,
    pub cost: Vec<f64>,
    pub cmax: Vec<f64>,
    pub work: Vec<u32>,
}

impl Call {
    /// A matrix of n up to 12, now and then up to 60; half of them damaged.
    pub fn random(kind: Kind, random: &mut Random) -> Call {
        let n = match random.below(50) {
            0 => random.below(61),
            _ => random.below(13),
        };
        let per_mille = [100, 300, 600, 1000][random.below(4)];
        let (col_ptr, rows) = match kind {
            Kind::Symmetric => random.lower_pattern(n, per_mille),
            Kind::General => random.pattern(n, per_mille),
        };
        let matrix = Matrix {
            n: n as u32,
            col_ptr: narrow(&col_ptr),
            values: vec![0.0; rows.len()],
            rows: narrow(&rows),
        };
        let mut call = Call::new(kind, matrix, random);
        if random.chance(500) {
            for _ in 0..1 + random.below(3) {
                call.damage(random);
            }
        }
        call
    }

    /// The matrix with values that its kind takes and their logs, and lent slices of the right lengths.
    pub fn new(kind: Kind, mut matrix: Matrix, random: &mut Random) -> Call {
        let (n, count) = (matrix.col_ptr.len().saturating_sub(1), matrix.rows.len());
        let places = match kind {
            Kind::Symmetric => 2 * count,
            Kind::General => count,
        };
        matrix.values = values(kind, random, matrix.values.len());
        Call {
            logs: logs(&matrix.values, random),
            graph_ptr: contents(random, n + 1),
            graph_rows: contents(random, places),
            cost: doubles(random, places),
            cmax: doubles(random, n),
            work: contents(random, 2 * n + 2 + count),
            matrix,
        }
    }

    /// For many n a band whose logs are at the ends of the range, the same with one log next to it, and that one
    /// dropped.
    pub fn at_log_limits(kind: Kind, random: &mut Random) -> Vec<Call> {
        let mut calls = Vec::new();
        for n in sizes() {
            let matrix = Matrix::band(n, 3, (3 * n as usize).saturating_sub(3).max(1), random);
            let mut call = Call::new(kind, matrix, random);
            call.matrix.values.fill(1.0);
            for log in &mut call.logs {
                *log = pick(random, &inside(n));
            }
            let at = random.below(call.logs.len());
            for log in [inside(n)[0], inside(n)[1], outside(n)[0], outside(n)[1]] {
                call.logs[at] = log;
                calls.push(call.clone());
            }
            call.matrix.values[at] = 0.0;
            calls.push(call);
        }
        calls
    }

    /// The values' whole-number logarithms for logs, as the calls that are lent none make them.
    pub fn with_whole_logs(mut self) -> Call {
        self.logs = self
            .matrix
            .values
            .iter()
            .map(|&value| whole(value))
            .collect();
        self
    }

    pub fn lengths_fit(&self, kind: Kind) -> bool {
        let (n, count) = (self.matrix.n as usize, self.matrix.rows.len());
        let places = match kind {
            Kind::Symmetric => 2 * count,
            Kind::General => count,
        };
        self.matrix.lengths_fit()
            && self.logs.len() == count
            && [self.graph_ptr.len(), self.cmax.len()] == [n + 1, n]
            && [self.graph_rows.len(), self.cost.len()] == [places; 2]
            && self.work.len() == 2 * n + 2 + count
    }

    /// One change at one rule; now and then it leaves the call whole.
    pub fn damage(&mut self, random: &mut Random) {
        match random.below(20) {
            0..=3 => self.matrix.damage(random),
            4 => other_length(random, &mut self.logs, 0.0),
            5 => other_length(random, &mut self.graph_ptr, 7),
            6 => other_length(random, &mut self.graph_rows, 7),
            7 => other_length(random, &mut self.cost, 7.0),
            8 => other_length(random, &mut self.cmax, 7.0),
            9 => other_length(random, &mut self.work, 7),
            place => self.damage_number(place, random),
        }
    }

    /// A value that is not finite, a log outside its range, or one at the ends of it or a zero.
    fn damage_number(&mut self, place: usize, random: &mut Random) {
        let count = self.logs.len().min(self.matrix.values.len());
        if count == 0 {
            return;
        }
        let (n, at) = (self.matrix.n, random.below(count));
        match place {
            10..=13 => self.matrix.values[at] = pick(random, &NOT_FINITE),
            14..=16 => self.logs[at] = pick(random, &outside(n)),
            _ => self.logs[at] = pick(random, &inside(n)),
        }
    }
}

const NOT_FINITE: [f64; 4] = [f64::NAN, -f64::NAN, f64::INFINITY, f64::NEG_INFINITY];

/// What is no log in a matrix of n columns; the first two are next to the range.
fn outside(n: u32) -> [f64; 10] {
    let first = above(last_log(n));
    [
        first,
        -first,
        140_737_488_355_328.0,
        -140_737_488_355_328.0,
        f64::MAX,
        f64::MIN,
        f64::INFINITY,
        f64::NEG_INFINITY,
        f64::NAN,
        -f64::NAN,
    ]
}

/// The last doubles inside the range, and zeros: the first of equals is the largest, with its sign.
fn inside(n: u32) -> [f64; 5] {
    let last = last_log(n);
    [last, -last, 0.0, -0.0, -0.0]
}

/// The whole-number logarithm of a kept value.
fn whole(value: f64) -> f64 {
    match kept(value) {
        true => crate::logs::log(value.abs().to_bits()).into(),
        false => f64::NAN,
    }
}

/// Values of one mood with some zeros; in a symmetric matrix all are finite.
fn values(kind: Kind, random: &mut Random, count: usize) -> Vec<f64> {
    let zeros = [0, 0, 100, 500, 1000][random.below(5)];
    let equal = random.chance(100);
    let value = |value: f64, random: &mut Random| match value {
        _ if random.chance(zeros) => pick(random, &[0.0, -0.0]),
        _ if equal => pick(random, &[2.5, -2.5]),
        value if kind == Kind::Symmetric && !value.is_finite() => pick(random, &[1.0, -1.0]),
        value => value,
    };
    let drawn = doubles(random, count);
    drawn
        .into_iter()
        .map(|drawn| value(drawn, random))
        .collect()
}

/// Rust's own logs; of dropped entries, which do not count, now and then anything.
fn logs(values: &[f64], random: &mut Random) -> Vec<f64> {
    let mut logs = oracle::logs(values);
    if random.chance(500) {
        for (log, _) in logs.iter_mut().zip(values).filter(|(_, &v)| !kept(v)) {
            *log = f64::from_bits(random.bits());
        }
    }
    logs
}

fn pick(random: &mut Random, among: &[f64]) -> f64 {
    among[random.below(among.len())]
}
