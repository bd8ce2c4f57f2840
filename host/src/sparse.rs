//! Sparse matrices by columns: the test of both kinds, and their assembly from triplets.

use crate::{Refusal, kept};

/// Tests the lower triangle of a symmetric matrix. Lengths: `col_ptr` n+1; `values` as `row_idx`. Refusals: 1, 2, 3, 4;
/// column by column at each entry 5, then 6, and after them 7.
///
/// ```
/// use suontarvi::{Refusal, sparse};
///
/// assert_eq!(sparse::validate_symmetric(2, &[0, 1, 2], &[1, 1], &[3.0, 4.0]), Ok(()));
/// assert_eq!(sparse::validate_symmetric(2, &[0, 0, 1], &[0], &[3.0]), Err(Refusal::UpperTriangle));
/// ```
pub fn validate_symmetric(n: u32, col_ptr: &[u32], row_idx: &[u32], values: &[f64]) -> Result<(), Refusal> {
    lent!(suontarvi_validate_symmetric(n; col_ptr, row_idx, values; ))
}

/// Tests a general matrix. Lengths: `col_ptr` n+1; `values` as `row_idx`. Refusals: 1, 2, 3, 4; at each entry 5, then
/// 7.
///
/// ```
/// use suontarvi::{Refusal, sparse};
///
/// assert_eq!(sparse::validate_general(2, &[0, 2, 2], &[0, 1], &[3.0, 4.0]), Ok(()));
/// assert_eq!(sparse::validate_general(2, &[0, 2, 2], &[1, 0], &[3.0, 4.0]), Err(Refusal::RowsNotRising));
/// ```
pub fn validate_general(n: u32, col_ptr: &[u32], row_idx: &[u32], values: &[f64]) -> Result<(), Refusal> {
    lent!(suontarvi_validate_general(n; col_ptr, row_idx, values; ))
}

/// Assembles the lower triangle of a symmetric matrix and returns the kept count: `row_idx` and `values` keep what they
/// held past it. Repeated places are summed in input order, from 0.0; a NaN sum has the bits 0x7FF8000000000000.
///
/// Lengths: `cols`, `vals`, `row_idx`, `values` as `rows`; `col_ptr` n+1; `work`
/// [`triplets_work`](crate::lengths::triplets_work). Refusals: 1, 2, 3; at each triplet 5, then 6.
///
/// ```
/// use suontarvi::{Refusal, lengths, sparse};
///
/// let (mut col_ptr, mut row_idx, mut values) = ([0; 3], [0; 3], [0.0; 3]);
/// let mut work = [0; lengths::triplets_work(2, 3)];
/// let kept = sparse::triplets_symmetric(
///     2, &[1, 0, 1], &[0, 0, 0], &[1.0, 5.0, 2.0], &mut col_ptr, &mut row_idx, &mut values, &mut work,
/// )?;
/// assert_eq!((kept, col_ptr), (2, [0, 2, 2]));
/// assert_eq!((&row_idx[..kept], &values[..kept]), (&[0, 1][..], &[5.0, 3.0][..]));
/// # Ok::<(), Refusal>(())
/// ```
#[allow(clippy::too_many_arguments)] // those of the C call
pub fn triplets_symmetric(
    n: u32,
    rows: &[u32],
    cols: &[u32],
    vals: &[f64],
    col_ptr: &mut [u32],
    row_idx: &mut [u32],
    values: &mut [f64],
    work: &mut [u32],
) -> Result<usize, Refusal> {
    lent!(suontarvi_triplets_symmetric(n; rows, cols, vals; col_ptr, row_idx, values, work))?;
    Ok(kept(col_ptr))
}

/// Assembles a general matrix and returns the kept count; all else as [`triplets_symmetric`], without 6.
///
/// ```
/// use suontarvi::{Refusal, lengths, sparse};
///
/// let (mut col_ptr, mut row_idx, mut values) = ([0; 3], [0; 2], [0.0; 2]);
/// let mut work = [0; lengths::triplets_work(2, 2)];
/// let kept = sparse::triplets_general(
///     2, &[1, 0], &[1, 1], &[1.0, 5.0], &mut col_ptr, &mut row_idx, &mut values, &mut work,
/// )?;
/// assert_eq!((kept, col_ptr, row_idx, values), (2, [0, 0, 2], [0, 1], [5.0, 1.0]));
/// # Ok::<(), Refusal>(())
/// ```
#[allow(clippy::too_many_arguments)] // those of the C call
pub fn triplets_general(
    n: u32,
    rows: &[u32],
    cols: &[u32],
    vals: &[f64],
    col_ptr: &mut [u32],
    row_idx: &mut [u32],
    values: &mut [f64],
    work: &mut [u32],
) -> Result<usize, Refusal> {
    lent!(suontarvi_triplets_general(n; rows, cols, vals; col_ptr, row_idx, values, work))?;
    Ok(kept(col_ptr))
}
