//! Exponents and their application, which the original lacks: the rules are restated here in exact integers. An
//! accepted application is followed by a second set, by the opposite one and by the other order.

mod bounds;

use crate::differs::{answer, same};
use crate::numbers::other_length;
use crate::sparse::inputs::Matrix;
use crate::sparse::Kind;
use crate::tally::Tally;
use oracle::random::Random;
use suontarvi::{exponents, Refusal};

const LIMIT: i64 = 67_108_864;

/// Runs `count` inputs of each call, and as many complete matches; whether all was alike.
pub fn run(count: u64, random: &mut Random) -> bool {
    let (mut made, mut applied) = (Tally::new("exponents"), Tally::new("apply_exponents"));
    let mut twice = Tally::new("apply_exponents twice");
    for _ in 0..count {
        Duals::random(random).compare(random, &mut made);
        let matrix = Matrix::random(Kind::General, random);
        compare(&matrix, random, &mut applied, &mut twice);
    }
    let bounded = bounds::run(count, random);
    let made = made.end();
    let applied = applied.end();
    twice.end() && made && applied && bounded
}

// ---- exponents from a match

#[derive(Clone, Debug)]
struct Duals {
    n: u32,
    u: Vec<f64>,
    v: Vec<f64>,
    cmax: Vec<f64>,
}

/// A factor: whole, at the limit, beside a whole number, or odd.
fn factor(random: &mut Random, mood: usize) -> f64 {
    let edge = LIMIT * 65_536;
    let near = random.below(200_000) as i64 - 100_000;
    let sign = if random.chance(500) { 1 } else { -1 };
    match random.below(if mood == 0 { 2 } else { 8 }) {
        0 => near as f64,
        1 => (sign * (random.bits() >> 22) as i64) as f64,
        2 => (sign * edge + near) as f64,
        3 => [0.0, -0.0, 0.5, -0.5, 65_536.0, -65_536.0][random.below(6)],
        4 => f64::from_bits(
            (near as f64)
                .to_bits()
                .wrapping_add(random.below(3) as u64)
                .wrapping_sub(1),
        ),
        5 => random.spread(60),
        6 => [f64::NAN, f64::INFINITY, f64::NEG_INFINITY, f64::MAX][random.below(4)],
        _ => f64::from_bits(random.bits()),
    }
}

/// The exponent of a factor, by its bits and an integer division that rounds down.
fn exponent(x: f64) -> Option<i32> {
    let bits = x.to_bits();
    let (field, fraction) = (
        (bits >> 52 & 0x7FF) as i32,
        (bits & 0xF_FFFF_FFFF_FFFF) as i128,
    );
    let size = match field {
        0 if fraction == 0 => 0,
        0 | 0x7FF => return None,
        _ => {
            let (digits, shift) = (fraction | 1 << 52, field - 1075);
            match shift {
                0..=70 => digits << shift,
                71.. => return None,
                _ if shift > -53 && digits % (1 << -shift) == 0 => digits >> -shift,
                _ => return None,
            }
        }
    };
    let whole = if bits >> 63 == 1 { -size } else { size };
    let floor = whole.div_euclid(65_536);
    (-LIMIT as i128..=LIMIT as i128)
        .contains(&floor)
        .then_some(floor as i32)
}

impl Duals {
    fn random(random: &mut Random) -> Duals {
        let n = if random.chance(20) {
            4_090 + random.below(9)
        } else {
            random.below(12)
        };
        let mood = random.below(3);
        let mut list = || (0..n).map(|_| factor(random, mood)).collect::<Vec<f64>>();
        let (u, v, cmax) = (list(), list(), list());
        Duals {
            n: n as u32,
            u,
            v,
            cmax,
        }
    }

    fn compare(mut self, random: &mut Random, tally: &mut Tally) {
        let n = self.n as usize;
        let junk = |random: &mut Random| (0..n).map(|_| random.bits() as i32).collect::<Vec<i32>>();
        let (mut rows, mut columns) = (junk(random), junk(random));
        if random.chance(100) {
            match random.below(5) {
                0 => other_length(random, &mut self.u, 0.0),
                1 => other_length(random, &mut self.v, 0.0),
                2 => other_length(random, &mut self.cmax, 0.0),
                3 => other_length(random, &mut rows, 0),
                _ => other_length(random, &mut columns, 0),
            }
        }
        let fit = [
            self.u.len(),
            self.v.len(),
            self.cmax.len(),
            rows.len(),
            columns.len(),
        ] == [n; 5];
        let of_rows: Vec<Option<i32>> = self.u.iter().map(|&x| exponent(x)).collect();
        let of_columns: Vec<Option<i32>> = self
            .v
            .iter()
            .zip(&self.cmax)
            .map(|(v, c)| exponent(v - c))
            .collect();
        let number = match () {
            _ if n > 4096 => 1,
            _ if !fit => 3,
            _ if of_rows.iter().chain(&of_columns).any(Option::is_none) => 43,
            _ => 0,
        };
        let (rows_before, columns_before) = (rows.clone(), columns.clone());
        let got = exponents::exponents(
            self.n,
            &self.u,
            &self.v,
            &self.cmax,
            &mut rows,
            &mut columns,
        );
        let expected = |list: &[Option<i32>], before: &[i32]| match number {
            0 => list.iter().map(|e| e.unwrap_or(0)).collect::<Vec<i32>>(),
            _ => before.to_vec(),
        };
        let compared = answer(&got, number)
            .and_then(|()| same("row_exponents", &rows, &expected(&of_rows, &rows_before)))
            .and_then(|()| {
                same(
                    "column_exponents",
                    &columns,
                    &expected(&of_columns, &columns_before),
                )
            });
        tally.add(number, compared, &self);
    }
}

// ---- exponents applied

#[derive(Clone, Debug)]
struct Sets {
    rows: Vec<i32>,
    columns: Vec<i32>,
}

impl Sets {
    fn random(n: usize, random: &mut Random) -> Sets {
        let far = [3, 40, 600, 1100][random.below(4)];
        let list = |random: &mut Random| {
            (0..n)
                .map(|_| random.below(2 * far + 1) as i32 - far as i32)
                .collect::<Vec<i32>>()
        };
        let mut sets = Sets {
            rows: list(random),
            columns: list(random),
        };
        if n > 0 && random.chance(100) {
            // large exponents that cancel, or one at the limit or past it
            let (at, other) = (random.below(n), random.below(n));
            let edge = [
                LIMIT as i32,
                -LIMIT as i32,
                LIMIT as i32 + 1,
                -LIMIT as i32 - 1,
                i32::MIN,
                i32::MAX,
            ];
            sets.rows[at] = edge[random.below(6)];
            sets.columns[other] = edge[random.below(6)];
        }
        sets
    }

    fn sums(&self, other: &Sets) -> Sets {
        let add = |a: &[i32], b: &[i32]| a.iter().zip(b).map(|(x, y)| x + y).collect();
        Sets {
            rows: add(&self.rows, &other.rows),
            columns: add(&self.columns, &other.columns),
        }
    }

    fn opposite(&self) -> Sets {
        let turn = |a: &[i32]| a.iter().map(|x| -x).collect();
        Sets {
            rows: turn(&self.rows),
            columns: turn(&self.columns),
        }
    }

    fn apply(&self, matrix: &Matrix, values: &mut [f64]) -> Result<(), Refusal> {
        exponents::apply_exponents(
            matrix.n,
            &matrix.col_ptr,
            &matrix.rows,
            &self.rows,
            &self.columns,
            values,
        )
    }

    /// The number answered and the bits left, by the rules.
    fn expected(&self, matrix: &Matrix) -> (u32, Vec<f64>) {
        let n = matrix.n as usize;
        let fit = matrix.lengths_fit() && [self.rows.len(), self.columns.len()] == [n; 2];
        let fault = Kind::General.fault(matrix, fit);
        if fault != 0 {
            return (fault, matrix.values.clone());
        }
        if self
            .rows
            .iter()
            .chain(&self.columns)
            .any(|&e| !(-LIMIT..=LIMIT).contains(&(e as i64)))
        {
            return (43, matrix.values.clone());
        }
        let mut values = matrix.values.clone();
        for column in 0..n {
            for place in matrix.col_ptr[column] as usize..matrix.col_ptr[column + 1] as usize {
                let shift =
                    self.rows[matrix.rows[place] as usize] as i64 + self.columns[column] as i64;
                match scaled(values[place], shift) {
                    Some(value) => values[place] = value,
                    None => return (46, matrix.values.clone()),
                }
            }
        }
        (0, values)
    }
}

/// x times 2 ^ shift, if x is zero, or normal before and after.
fn scaled(x: f64, shift: i64) -> Option<f64> {
    if x == 0.0 {
        return Some(x);
    }
    let field = (x.to_bits() >> 52 & 0x7FF) as i64;
    let normal = |field: i64| (1..=2046).contains(&field);
    let kept = x.to_bits() & 0x800F_FFFF_FFFF_FFFF;
    (normal(field) && normal(field + shift))
        .then(|| f64::from_bits(kept | ((field + shift) as u64) << 52))
}

/// One application, and where it is accepted those after it.
fn compare(matrix: &Matrix, random: &mut Random, applied: &mut Tally, twice: &mut Tally) {
    let mut matrix = matrix.clone();
    if random.chance(700) {
        for value in &mut matrix.values {
            *value = if random.chance(50) {
                -0.0
            } else {
                random.spread(900)
            };
        }
    }
    let n = matrix.n.min(5_000) as usize;
    let mut first = Sets::random(n, random);
    if random.chance(50) {
        let list = match random.chance(500) {
            true => &mut first.rows,
            false => &mut first.columns,
        };
        other_length(random, list, 0);
    }
    let (number, expected) = first.expected(&matrix);
    let mut values = matrix.values.clone();
    let compared = answer(&first.apply(&matrix, &mut values), number)
        .and_then(|()| same("values", &values, &expected));
    applied.add(number, compared, &(&matrix, &first));
    if number == 0 {
        again(&matrix, &values, &first, &Sets::random(n, random), twice);
    }
}

/// The opposite set brings the values back; a second set, where it is accepted, leaves what the sums leave, and the
/// other order, where it is accepted, the same.
fn again(matrix: &Matrix, once: &[f64], first: &Sets, second: &Sets, tally: &mut Tally) {
    let mut back = once.to_vec();
    let mut compared = answer(&first.opposite().apply(matrix, &mut back), 0)
        .and_then(|()| same("values brought back", &back, &matrix.values));
    let mut values = once.to_vec();
    let accepted = second.apply(matrix, &mut values).is_ok();
    if accepted {
        let sums = first.sums(second);
        if sums
            .rows
            .iter()
            .chain(&sums.columns)
            .all(|e| (-LIMIT..=LIMIT).contains(&(*e as i64)))
        {
            let mut at_once = matrix.values.clone();
            compared = compared
                .and_then(|()| answer(&sums.apply(matrix, &mut at_once), 0))
                .and_then(|()| same("values by the sums", &at_once, &values));
        }
        let mut other = matrix.values.clone();
        if second.apply(matrix, &mut other).is_ok() && first.apply(matrix, &mut other).is_ok() {
            compared = compared.and_then(|()| same("values in the other order", &other, &values));
        }
    }
    tally.add(0, compared, &(matrix, first, second));
}
