//! Log factors from a match: their exponentials scale the matrix. The calls take any numbers and do not test whether
//! they belong together. [`Matching`](crate::Matching) has the same without lent slices.

use crate::{Refusal, raw};

/// What unmatched rows and columns of a symmetric matrix get.
#[derive(Debug, Clone, Copy, PartialEq, Eq, Hash)]
#[repr(u32)]
pub enum Rule {
    /// The log factor 0: they stay as they are.
    Identity = 0,
    /// A log factor that brings their largest entry to a matched index to 1 (Duff and Pralet, 2005).
    Flat = 1,
}

/// The log factors of a symmetric matrix, one of each row and its column: (u + v - cmax) / 2, clamped to -709..709, and
/// 0 if the row or the column is unmatched. Returns the number of unmatched columns.
///
/// Lengths: `perm`, `u`, `v`, `cmax`, `factors`, `work` n. Refusals: 1, 3, 10.
///
/// ```
/// use suontarvi::{Refusal, factors};
///
/// let mut logs = [0.0];
/// let unmatched = factors::log_factors(1, 1, &[0], &[0.0], &[0.0], &[3.0], &mut logs, &mut [0])?;
/// assert_eq!((unmatched, logs), (0, [-1.5]));
/// # Ok::<(), Refusal>(())
/// ```
#[allow(clippy::too_many_arguments)] // those of the C call
pub fn log_factors(
    n: u32,
    matched: u32,
    perm: &[u32],
    u: &[f64],
    v: &[f64],
    cmax: &[f64],
    factors: &mut [f64],
    work: &mut [u32],
) -> Result<u32, Refusal> {
    let mut unmatched = [0];
    raw::log_factors(n, matched, perm, u, v, cmax, factors, work, &mut unmatched)?;
    Ok(unmatched[0])
}

/// The same by a rule. [`Rule::Identity`] reads no matrix: `col_ptr`, `row_idx`, `values` and `logs` may be empty.
/// [`Rule::Flat`] takes the matrix, its lower triangle, and the natural logarithm of each value's magnitude.
///
/// Lengths: as [`log_factors`]; by the flat rule `col_ptr` n+1, `values` and `logs` as `row_idx`. Refusals: 1, 3, 10;
/// by the flat rule those of the [symmetric cost graph](crate::graphs::symmetric_graph), then 10.
///
/// ```
/// use suontarvi::{NONE, Refusal, factors};
///
/// // column 0 has row 0; index 1 is unmatched, with an entry of log 4 to index 0
/// let mut logs = [9.0; 2];
/// let unmatched = factors::log_factors_by_rule(
///     factors::Rule::Flat, 2, 1, &[0, NONE], &[0.0; 2], &[0.0; 2], &[6.0; 2],
///     &[0, 2, 2], &[0, 1], &[1.0, 1.0], &[6.0, 4.0], &mut logs, &mut [0; 2],
/// )?;
/// assert_eq!((unmatched, logs), (1, [-3.0, -1.0]));
/// # Ok::<(), Refusal>(())
/// ```
#[allow(clippy::too_many_arguments)] // those of the C call
pub fn log_factors_by_rule(
    rule: Rule,
    n: u32,
    matched: u32,
    perm: &[u32],
    u: &[f64],
    v: &[f64],
    cmax: &[f64],
    col_ptr: &[u32],
    row_idx: &[u32],
    values: &[f64],
    logs: &[f64],
    factors: &mut [f64],
    work: &mut [u32],
) -> Result<u32, Refusal> {
    let (rule, mut unmatched) = (rule as u32, [0]);
    raw::log_factors_by_rule(
        rule,
        n,
        matched,
        perm,
        u,
        v,
        cmax,
        col_ptr,
        row_idx,
        values,
        logs,
        factors,
        work,
        &mut unmatched,
    )?;
    Ok(unmatched[0])
}

/// The log factors of rows, u, and of columns, v - cmax, of a general matrix, each clamped to -709..709.
///
/// Lengths: all n. Refusals: 1, 3.
///
/// ```
/// use suontarvi::{Refusal, factors};
///
/// let (mut rows, mut columns) = ([0.0], [0.0]);
/// factors::unsymmetric_factors(1, &[1.0], &[2.0], &[5.0], &mut rows, &mut columns)?;
/// assert_eq!((rows, columns), ([1.0], [-3.0]));
/// # Ok::<(), Refusal>(())
/// ```
pub fn unsymmetric_factors(
    n: u32,
    u: &[f64],
    v: &[f64],
    cmax: &[f64],
    row_factors: &mut [f64],
    column_factors: &mut [f64],
) -> Result<(), Refusal> {
    lent!(suontarvi_unsymmetric_factors(n; u, v, cmax; row_factors, column_factors))
}

/// The symmetric ones for comparison: slices as bytes, low byte first, a smaller limit, no work.
///
/// ```
/// use suontarvi::{Refusal, factors};
///
/// let (zero, mut logs, mut unmatched) = ([0; 8], [9; 8], [9; 4]);
/// factors::log_factors_bytes(1, 1, &[0; 4], &zero, &zero, &3f64.to_le_bytes(), &mut logs, &mut unmatched)?;
/// assert_eq!((f64::from_le_bytes(logs), unmatched), (-1.5, [0; 4]));
/// # Ok::<(), Refusal>(())
/// ```
#[allow(clippy::too_many_arguments)] // those of the C call
pub fn log_factors_bytes(
    n: u32,
    matched: u32,
    perm: &[u8],
    u: &[u8],
    v: &[u8],
    cmax: &[u8],
    factors: &mut [u8],
    unmatched: &mut [u8],
) -> Result<(), Refusal> {
    lent!(suontarvi_log_factors_bytes(n, matched; perm, u, v, cmax; factors, unmatched))
}

/// The unsymmetric ones likewise.
///
/// ```
/// use suontarvi::{Refusal, factors};
///
/// let (one, mut rows, mut columns) = (1f64.to_le_bytes(), [9; 8], [9; 8]);
/// factors::unsymmetric_factors_bytes(1, &one, &one, &one, &mut rows, &mut columns)?;
/// assert_eq!((f64::from_le_bytes(rows), f64::from_le_bytes(columns)), (1.0, 0.0));
/// # Ok::<(), Refusal>(())
/// ```
pub fn unsymmetric_factors_bytes(
    n: u32,
    u: &[u8],
    v: &[u8],
    cmax: &[u8],
    row_factors: &mut [u8],
    column_factors: &mut [u8],
) -> Result<(), Refusal> {
    lent!(suontarvi_unsymmetric_factors_bytes(n; u, v, cmax; row_factors, column_factors))
}
