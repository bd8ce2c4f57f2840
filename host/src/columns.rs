//! What both kinds of matrix own.

use crate::lengths::{MAX_ENTRIES, MAX_N, pointers, triplets_work};
use crate::{Refusal, Workspace};

/// A matrix by columns, as [`GeneralMatrix`](crate::GeneralMatrix) and [`SymmetricMatrix`](crate::SymmetricMatrix) hold
/// it: column j has the entries from pointer j up to pointer j+1, their rows rising.
///
/// ```
/// use suontarvi::{Columns, GeneralMatrix, Refusal};
///
/// let matrix = GeneralMatrix::from_entries(2, [(1, 1, -1.0), (0, 1, 2.0)])?;
/// let columns: &Columns = &matrix;
/// assert_eq!((columns.n(), columns.col_ptr(), columns.row_idx()), (2, &[0, 0, 2][..], &[0, 1][..]));
/// assert_eq!(columns.entries().collect::<Vec<_>>(), [(0, 1, 2.0), (1, 1, -1.0)]);
/// assert_eq!(columns.logs(), [2f64.ln(), 0.0]);
/// # Ok::<(), Refusal>(())
/// ```
#[derive(Debug, Clone, PartialEq)]
pub struct Columns {
    pub(crate) col_ptr: Vec<u32>,
    pub(crate) row_idx: Vec<u32>,
    pub(crate) values: Vec<f64>,
}

/// The test of a matrix, of either kind.
type Validate = fn(u32, &[u32], &[u32], &[f64]) -> Result<(), Refusal>;

/// The assembly of triplets, of either kind.
type Assemble =
    fn(u32, &[u32], &[u32], &[f64], &mut [u32], &mut [u32], &mut [f64], &mut [u32]) -> Result<usize, Refusal>;

/// n as calls take it; above the limit it is refused before anything is allocated.
pub(crate) fn number(n: usize) -> Result<u32, Refusal> {
    match n {
        0..=MAX_N => Ok(n as u32),
        _ => Err(Refusal::TooManyColumns),
    }
}

impl Columns {
    pub(crate) fn validated(self, n: usize, validate: Validate) -> Result<Columns, Refusal> {
        validate(number(n)?, &self.col_ptr, &self.row_idx, &self.values)?;
        Ok(self)
    }

    pub(crate) fn assembled(
        n: usize,
        [rows, cols]: [&[u32]; 2],
        vals: &[f64],
        assemble: Assemble,
        workspace: &mut Workspace,
    ) -> Result<Columns, Refusal> {
        let (size, count) = (number(n)?, rows.len());
        let mut made = Columns { col_ptr: vec![0; pointers(n)], row_idx: vec![0; count], values: vec![0.0; count] };
        let work = workspace.numbers(triplets_work(n, count));
        let Columns { col_ptr, row_idx, values } = &mut made;
        let kept = assemble(size, rows, cols, vals, col_ptr, row_idx, values, work)?;
        row_idx.truncate(kept);
        values.truncate(kept);
        Ok(made)
    }

    /// Entries in any order, put by columns with rising rows; an index not below n is refused. A repeated place stays
    /// twice, which every test of columns refuses.
    pub(crate) fn sorted(n: usize, entries: impl IntoIterator<Item = (u32, u32, f64)>) -> Result<Columns, Refusal> {
        number(n)?;
        let mut entries: Vec<_> = entries.into_iter().collect();
        if entries.len() > MAX_ENTRIES {
            return Err(Refusal::TooManyEntries);
        }
        entries.sort_by_key(|&(row, column, _)| (column, row));
        let mut col_ptr = vec![0; pointers(n)];
        for &(_, column, _) in &entries {
            let end = col_ptr[1..].get_mut(column as usize).ok_or(Refusal::IndexRange)?;
            *end += 1;
        }
        for column in 0..n {
            col_ptr[column + 1] += col_ptr[column];
        }
        let (row_idx, values) = entries.iter().map(|&(row, _, value)| (row, value)).unzip();
        Ok(Columns { col_ptr, row_idx, values })
    }

    /// The number of columns, and of rows.
    pub fn n(&self) -> usize {
        self.col_ptr.len() - 1
    }

    /// The column pointers, n+1 of them.
    pub fn col_ptr(&self) -> &[u32] {
        &self.col_ptr
    }

    /// The row of each entry.
    pub fn row_idx(&self) -> &[u32] {
        &self.row_idx
    }

    /// The value of each entry.
    pub fn values(&self) -> &[f64] {
        &self.values
    }

    /// Row, column and value of each stored entry, by columns.
    pub fn entries(&self) -> impl Iterator<Item = (usize, usize, f64)> {
        (0..self.n()).flat_map(move |column| {
            let places = self.col_ptr[column] as usize..self.col_ptr[column + 1] as usize;
            places.map(move |at| (self.row_idx[at] as usize, column, self.values[at]))
        })
    }

    /// The natural logarithm of each value's magnitude, by this host's [`f64::ln`], which is not proved; minus infinity
    /// for a zero.
    pub fn logs(&self) -> Vec<f64> {
        self.values.iter().map(|value| value.abs().ln()).collect()
    }
}

/// Rows, columns and values apart.
pub(crate) fn unzipped(entries: impl IntoIterator<Item = (u32, u32, f64)>) -> (Vec<u32>, Vec<u32>, Vec<f64>) {
    let (mut rows, mut cols, mut vals) = (Vec::new(), Vec::new(), Vec::new());
    for (row, column, value) in entries {
        rows.push(row);
        cols.push(column);
        vals.push(value);
    }
    (rows, cols, vals)
}
