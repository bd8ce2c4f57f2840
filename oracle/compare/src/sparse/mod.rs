//! `validate` and `from_triplets` of both kinds. Refusals 1, 2 and 3 are expected by SPECIFICATION's rules,
//! which the original does not have or has for fewer slices; all others are the original's own.

pub mod inputs;

use crate::differs::{answer, same, zero};
use crate::tally::Tally;
use inputs::{Matrix, Triplets};
use oracle::random::Random;
use oracle::{General, Symmetric};
use suontarvi::{sparse, Refusal};

#[derive(Clone, Copy, Debug, PartialEq)]
pub enum Kind {
    Symmetric,
    General,
}

pub const ROW_LIMIT: u32 = 4096;

/// How a NaN sum is stored.
const STORED_NAN: u64 = 0x7FF8_0000_0000_0000;

/// Runs `count` inputs of each call, and those at the limits; whether all was alike.
pub fn run(count: u64, random: &mut Random) -> bool {
    let calls = [
        (Kind::Symmetric, "validate_symmetric", "triplets_symmetric"),
        (Kind::General, "validate_general", "triplets_general"),
    ];
    let mut alike = true;
    for (kind, validate, triplets) in calls {
        let mut tests = Tally::new(validate);
        let mut assemblies = Tally::new(triplets);
        for _ in 0..count {
            test(kind, &Matrix::random(kind, random), &mut tests);
            assemble(kind, Triplets::random(kind, random), &mut assemblies);
        }
        Matrix::at_limits(kind, random, |matrix| test(kind, matrix, &mut tests));
        Triplets::at_limits(kind, random, |triplets| {
            assemble(kind, triplets, &mut assemblies)
        });
        alike &= tests.end();
        alike &= assemblies.end();
    }
    alike
}

/// One call of `validate`.
fn test(kind: Kind, matrix: &Matrix, tally: &mut Tally) {
    let expected = kind.fault(matrix, matrix.lengths_fit());
    let lent = matrix.clone();
    let got = kind.test(&lent);
    let compared = answer(&got, expected).and_then(|()| lent.unchanged(matrix));
    tally.add(expected, compared, matrix);
}

/// One call of `from_triplets`.
fn assemble(kind: Kind, before: Triplets, tally: &mut Tally) {
    let assembled = kind.assembly(&before);
    let mut after = before.clone();
    let got = kind.assemble(&mut after);
    let (expected, compared) = match assembled {
        Err(number) => (
            number,
            answer(&got, number).and_then(|()| after.refused(&before)),
        ),
        Ok(matrix) => (
            0,
            answer(&got, 0).and_then(|()| after.holds(&matrix, &before, got)),
        ),
    };
    tally.add(expected, compared, &before);
}

/// Refusals 1 and 2 of SPECIFICATION 3.4, or 0.
pub fn limits(kind: Kind, n: u32, entries: usize) -> u32 {
    if n > ROW_LIMIT {
        1
    } else if entries > kind.entry_limit() {
        2
    } else {
        0
    }
}

/// Pointers, rows and values of an assembled matrix.
pub type Assembled = (Vec<u32>, Vec<u32>, Vec<f64>);

impl Kind {
    pub fn entry_limit(self) -> usize {
        match self {
            Kind::Symmetric => 131_072,
            Kind::General => 262_144,
        }
    }

    fn test(self, lent: &Matrix) -> Result<(), Refusal> {
        let call = match self {
            Kind::Symmetric => sparse::validate_symmetric,
            Kind::General => sparse::validate_general,
        };
        call(lent.n, &lent.col_ptr, &lent.rows, &lent.values)
    }

    /// The first refusal of a matrix, or 0: 1, 2 and 3 by SPECIFICATION, the others by the original.
    pub fn fault(self, matrix: &Matrix, lengths_fit: bool) -> u32 {
        match limits(self, matrix.n, matrix.rows.len()) {
            0 if !lengths_fit => 3,
            0 => self.original_test(matrix),
            limit => limit,
        }
    }

    fn original_test(self, matrix: &Matrix) -> u32 {
        let (n, col_ptr) = (matrix.n as usize, wide(&matrix.col_ptr));
        let (rows, values) = (wide(&matrix.rows), matrix.values.clone());
        let verdict = match self {
            Kind::Symmetric => Symmetric::new(n, col_ptr, rows, values).validate(),
            Kind::General => General::new(n, col_ptr, rows, values).validate(),
        };
        verdict.err().unwrap_or(0)
    }

    fn assemble(self, lent: &mut Triplets) -> Result<usize, Refusal> {
        let call = match self {
            Kind::Symmetric => sparse::triplets_symmetric,
            Kind::General => sparse::triplets_general,
        };
        call(
            lent.n,
            &lent.rows,
            &lent.cols,
            &lent.vals,
            &mut lent.col_ptr,
            &mut lent.row_idx,
            &mut lent.values,
            &mut lent.work,
        )
    }

    /// The first refusal of the triplets, or the matrix: 1, 2 and 3 by SPECIFICATION, all else by the original.
    pub fn assembly(self, triplets: &Triplets) -> Result<Assembled, u32> {
        match limits(self, triplets.n, triplets.rows.len()) {
            0 if !triplets.lengths_fit() => Err(3),
            0 => self.original_assembly(triplets),
            limit => Err(limit),
        }
    }

    fn original_assembly(self, triplets: &Triplets) -> Result<Assembled, u32> {
        let (rows, cols) = (wide(&triplets.rows), wide(&triplets.cols));
        let n = triplets.n as usize;
        let (col_ptr, row_idx, values) = match self {
            Kind::Symmetric => {
                Symmetric::from_triplets(n, &rows, &cols, &triplets.vals)?.into_parts()
            }
            Kind::General => General::from_triplets(n, &rows, &cols, &triplets.vals)?.into_parts(),
        };
        Ok((narrow(&col_ptr), narrow(&row_idx), values))
    }
}

impl Matrix {
    pub fn lengths_fit(&self) -> bool {
        self.col_ptr.len() == self.n as usize + 1 && self.values.len() == self.rows.len()
    }

    pub fn unchanged(&self, before: &Matrix) -> Result<(), String> {
        same("col_ptr", &self.col_ptr, &before.col_ptr)?;
        same("rows", &self.rows, &before.rows)?;
        same("values", &self.values, &before.values)
    }
}

impl Triplets {
    fn lengths_fit(&self) -> bool {
        let (n, count) = (self.n as usize, self.rows.len());
        let as_rows = [
            self.cols.len(),
            self.vals.len(),
            self.row_idx.len(),
            self.values.len(),
        ];
        as_rows == [count; 4] && self.col_ptr.len() == n + 1 && self.work.len() == 2 * n + 2 + count
    }

    fn inputs_unchanged(&self, before: &Triplets) -> Result<(), String> {
        same("rows", &self.rows, &before.rows)?;
        same("cols", &self.cols, &before.cols)?;
        same("vals", &self.vals, &before.vals)
    }

    /// After a refusal nothing has changed.
    fn refused(&self, before: &Triplets) -> Result<(), String> {
        self.inputs_unchanged(before)?;
        same("col_ptr", &self.col_ptr, &before.col_ptr)?;
        same("row_idx", &self.row_idx, &before.row_idx)?;
        same("values", &self.values, &before.values)?;
        same("work", &self.work, &before.work)
    }

    /// After acceptance the slices hold the matrix, past it what they held, and the work is zero.
    fn holds(
        &self,
        (col_ptr, row_idx, values): &Assembled,
        before: &Triplets,
        answered: Result<usize, Refusal>,
    ) -> Result<(), String> {
        let kept = row_idx.len();
        if answered != Ok(kept) {
            return Err(format!("kept {answered:?}, not {kept}"));
        }
        self.inputs_unchanged(before)?;
        same("col_ptr", &self.col_ptr, col_ptr)?;
        same("row_idx", &self.row_idx[..kept], row_idx)?;
        same("values", &self.values[..kept], &stored(values))?;
        same(
            "row_idx past",
            &self.row_idx[kept..],
            &before.row_idx[kept..],
        )?;
        same("values past", &self.values[kept..], &before.values[kept..])?;
        zero("work", &self.work)
    }
}

/// The original's sums, each NaN with the bits of SPECIFICATION 4.4.
pub fn stored(values: &[f64]) -> Vec<f64> {
    let nan = f64::from_bits(STORED_NAN);
    let bits = |&value: &f64| if value.is_nan() { nan } else { value };
    values.iter().map(bits).collect()
}

pub fn wide(indices: &[u32]) -> Vec<usize> {
    indices.iter().map(|&index| index as usize).collect()
}

pub fn narrow(indices: &[usize]) -> Vec<u32> {
    indices.iter().map(|&index| index as u32).collect()
}
