//! Powers of two in place of factors: exponents from a match of whole numbers, and a general matrix scaled by them,
//! which rounds nothing.

use crate::Refusal;

/// The exponents of rows and columns from the duals of a match and the largest log of each column, in units of
/// 1/65,536: u / 65,536 of a row and (v - cmax) / 65,536 of a column, each rounded down.
///
/// Lengths: all n. Refusals: 1, 3, 43.
///
/// ```
/// use suontarvi::{Refusal, exponents};
///
/// let (mut rows, mut columns) = ([0], [0]);
/// exponents::exponents(1, &[0.0], &[0.0], &[196608.0], &mut rows, &mut columns)?;
/// assert_eq!((rows, columns), ([0], [-3]));
/// # Ok::<(), Refusal>(())
/// ```
pub fn exponents(
    n: u32,
    u: &[f64],
    v: &[f64],
    cmax: &[f64],
    row_exponents: &mut [i32],
    column_exponents: &mut [i32],
) -> Result<(), Refusal> {
    lent!(suontarvi_exponents(n; u, v, cmax; row_exponents, column_exponents))
}

/// The values of a general matrix by columns, each times 2 ^ (exponent of its row + exponent of its column), in place.
///
/// Lengths: `col_ptr` n+1; `values` as `row_idx`; the exponents n. Refusals: those of a general matrix, then 43, then
/// 46.
///
/// ```
/// use suontarvi::{Refusal, exponents};
///
/// let mut values = [8.0];
/// exponents::apply_exponents(1, &[0, 1], &[0], &[1], &[-3], &mut values)?;
/// assert_eq!(values, [2.0]);
/// # Ok::<(), Refusal>(())
/// ```
pub fn apply_exponents(
    n: u32,
    col_ptr: &[u32],
    row_idx: &[u32],
    row_exponents: &[i32],
    column_exponents: &[i32],
    values: &mut [f64],
) -> Result<(), Refusal> {
    lent!(suontarvi_apply_exponents(n; col_ptr, row_idx, row_exponents, column_exponents; values))
}
