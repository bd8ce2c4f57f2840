//! Calls whose answer the other modules return, as C has them: the answer, too, is a slice that the caller lends.
//! Nothing is tested before the call, and a slice of another length is refused with 3.
//!
//! ```
//! use suontarvi::{Refusal, raw};
//!
//! let mut root = [0; 8];
//! raw::sqrt(4.0, &mut root)?;
//! assert_eq!(f64::from_le_bytes(root), 2.0);
//! assert_eq!(raw::sqrt(4.0, &mut root[..7]), Err(Refusal::SliceLength));
//! # Ok::<(), Refusal>(())
//! ```

use crate::Refusal;

/// The square root of `x` into 8 bytes, low byte first.
///
/// ```
/// use suontarvi::{Refusal, raw};
///
/// let mut root = [0; 8];
/// assert_eq!(raw::sqrt(-1.0, &mut root), Err(Refusal::NoRoot));
/// assert_eq!(root, [0; 8]);
/// ```
pub fn sqrt(x: f64, root: &mut [u8]) -> Result<(), Refusal> {
    lent!(suontarvi_sqrt(x; ; root))
}

/// The whole-number logarithm of `x` into 1 place.
///
/// ```
/// use suontarvi::{Refusal, raw};
///
/// let mut p = [0];
/// raw::whole_log(-8.0, &mut p)?;
/// assert_eq!(p, [3 * 65536]);
/// # Ok::<(), Refusal>(())
/// ```
pub fn whole_log(x: f64, p: &mut [i32]) -> Result<(), Refusal> {
    lent!(suontarvi_whole_log(x; ; p))
}

/// The match; `answer`, 8 places, gets the matched count and the seven counts.
///
/// ```
/// use suontarvi::{Refusal, raw};
///
/// let (mut perm, mut u, mut v) = ([0; 1], [0.0; 1], [0.0; 1]);
/// let (mut work, mut fwork, mut answer) = ([0; 13], [0.0; 2], [0; 8]);
/// raw::hungarian_match(1, &[0, 1], &[0], &[7.0], &mut perm, &mut u, &mut v, &mut work, &mut fwork, &mut answer)?;
/// assert_eq!((perm, u, v, answer[0]), ([0], [7.0], [0.0], 1));
/// # Ok::<(), Refusal>(())
/// ```
#[allow(clippy::too_many_arguments)] // those of the C call
pub fn hungarian_match(
    n: u32,
    col_ptr: &[u32],
    row_idx: &[u32],
    cost: &[f64],
    perm: &mut [u32],
    u: &mut [f64],
    v: &mut [f64],
    work: &mut [u32],
    fwork: &mut [f64],
    answer: &mut [u64],
) -> Result<(), Refusal> {
    lent!(suontarvi_match(n; col_ptr, row_idx, cost; perm, u, v, work, fwork, answer))
}

/// The gap of a match, whoever made it, into 1 place, in steps of 2^-digits.
///
/// ```
/// use suontarvi::{Refusal, raw};
///
/// let mut gap = [9];
/// // the dual lacks a half of the cost: 2 steps of a quarter
/// raw::match_gap(1, 2, &[0, 1], &[0], &[7.0], &[0], &[6.5], &[0.0], &mut gap)?;
/// assert_eq!(gap, [2]);
/// let refused = raw::match_gap(1, 51, &[0, 1], &[0], &[7.0], &[0], &[6.5], &[0.0], &mut gap);
/// assert_eq!((refused, gap), (Err(Refusal::IndexRange), [2]));
/// # Ok::<(), Refusal>(())
/// ```
#[allow(clippy::too_many_arguments)] // those of the C call
pub fn match_gap(
    n: u32,
    digits: u32,
    col_ptr: &[u32],
    row_idx: &[u32],
    cost: &[f64],
    perm: &[u32],
    u: &[f64],
    v: &[f64],
    gap: &mut [u64],
) -> Result<(), Refusal> {
    lent!(suontarvi_match_gap(n, digits; col_ptr, row_idx, cost, perm, u, v; gap))
}

/// Checks that a matching, whoever made it, is largest, with the marks that show it; `matched`, 1 place, gets its
/// pairs.
///
/// ```
/// use suontarvi::{NONE, Refusal, raw};
///
/// // two columns with entries in row 0 alone
/// let (mut columns, mut rows, mut matched) = ([9; 2], [9; 2], [9]);
/// raw::check_largest(2, &[0, 1, 2], &[0, 0], &[NONE, 0], &mut columns, &mut rows, &mut matched)?;
/// assert_eq!((columns, rows, matched), ([1, 1], [1, 0], [1]));
/// let refused = raw::check_largest(2, &[0, 1, 2], &[0, 0], &[NONE; 2], &mut columns, &mut rows, &mut matched);
/// assert_eq!((refused, matched), (Err(Refusal::NotLargest), [1]));
/// # Ok::<(), Refusal>(())
/// ```
pub fn check_largest(
    n: u32,
    col_ptr: &[u32],
    row_idx: &[u32],
    perm: &[u32],
    columns: &mut [u32],
    rows: &mut [u32],
    matched: &mut [u32],
) -> Result<(), Refusal> {
    lent!(suontarvi_check_largest(n; col_ptr, row_idx, perm; columns, rows, matched))
}

/// The file of a match; `used`, 1 place, gets its length.
///
/// ```
/// use suontarvi::{Refusal, raw};
///
/// let (mut sheet, mut used) = ([0; 31], [0]);
/// raw::write_sheet(1, 1, &[0], &[7.0], &[0.0], &[0.0], &mut sheet, &mut used)?;
/// // n, the column, its map, its row and u
/// assert_eq!(used, [2 + 2 + 1 + 2 + 8]);
/// # Ok::<(), Refusal>(())
/// ```
#[allow(clippy::too_many_arguments)] // those of the C call
pub fn write_sheet(
    n: u32,
    matched: u32,
    perm: &[u32],
    u: &[f64],
    v: &[f64],
    cmax: &[f64],
    sheet: &mut [u8],
    used: &mut [u32],
) -> Result<(), Refusal> {
    lent!(suontarvi_write_sheet(n, matched; perm, u, v, cmax; sheet, used))
}

/// The match of a file; `answer`, 2 places, gets n and the matched count.
///
/// ```
/// use suontarvi::{Refusal, raw};
///
/// // one column, whose record has its row alone
/// let sheet = [1, 0, 0, 0, 1, 0, 0];
/// let (mut perm, mut u, mut v, mut cmax) = ([9; 1], [9.0; 1], [9.0; 1], [9.0; 1]);
/// let mut answer = [0; 2];
/// raw::read_sheet(&sheet, &mut perm, &mut u, &mut v, &mut cmax, &mut answer)?;
/// assert_eq!((perm, u, answer), ([0], [0.0], [1, 1]));
/// # Ok::<(), Refusal>(())
/// ```
pub fn read_sheet(
    sheet: &[u8],
    perm: &mut [u32],
    u: &mut [f64],
    v: &mut [f64],
    cmax: &mut [f64],
    answer: &mut [u32],
) -> Result<(), Refusal> {
    lent!(suontarvi_read_sheet(; sheet; perm, u, v, cmax, answer))
}

/// The same of a canonical file.
///
/// ```
/// use suontarvi::{Refusal, raw};
///
/// // a record without a field says nothing
/// let sheet = [1, 0, 0, 0, 0];
/// let (mut perm, mut u, mut v, mut cmax) = ([9; 1], [9.0; 1], [9.0; 1], [9.0; 1]);
/// let refused = raw::read_canonical_sheet(&sheet, &mut perm, &mut u, &mut v, &mut cmax, &mut [0; 2]);
/// assert_eq!((refused, perm), (Err(Refusal::NeedlessField), [9]));
/// ```
pub fn read_canonical_sheet(
    sheet: &[u8],
    perm: &mut [u32],
    u: &mut [f64],
    v: &mut [f64],
    cmax: &mut [f64],
    answer: &mut [u32],
) -> Result<(), Refusal> {
    lent!(suontarvi_read_canonical_sheet(; sheet; perm, u, v, cmax, answer))
}

/// Log factors of a symmetric matrix; `unmatched`, 1 place, gets the number of unmatched columns.
///
/// ```
/// use suontarvi::{Refusal, raw};
///
/// let (mut factors, mut work, mut unmatched) = ([0.0; 1], [0; 1], [9; 1]);
/// raw::log_factors(1, 1, &[0], &[1.0], &[0.0], &[2.0], &mut factors, &mut work, &mut unmatched)?;
/// // half of u + v - cmax
/// assert_eq!((factors, unmatched), ([-0.5], [0]));
/// # Ok::<(), Refusal>(())
/// ```
#[allow(clippy::too_many_arguments)] // those of the C call
pub fn log_factors(
    n: u32,
    matched: u32,
    perm: &[u32],
    u: &[f64],
    v: &[f64],
    cmax: &[f64],
    factors: &mut [f64],
    work: &mut [u32],
    unmatched: &mut [u32],
) -> Result<(), Refusal> {
    lent!(suontarvi_log_factors(n, matched; perm, u, v, cmax; factors, work, unmatched))
}

/// The same by the number of a rule; an unknown number is refused with 5.
///
/// ```
/// use suontarvi::{Refusal, raw};
///
/// let (mut factors, mut work, mut unmatched) = ([0.0; 1], [0; 1], [9; 1]);
/// let mut by = |rule| {
///     let (f, w, c) = (&mut factors, &mut work, &mut unmatched);
///     raw::log_factors_by_rule(rule, 1, 1, &[0], &[1.0], &[0.0], &[2.0], &[], &[], &[], &[], f, w, c)
/// };
/// // the identity rule reads no matrix
/// assert_eq!((by(0), by(2)), (Ok(()), Err(Refusal::IndexRange)));
/// assert_eq!(factors, [-0.5]);
/// ```
#[allow(clippy::too_many_arguments)] // those of the C call
pub fn log_factors_by_rule(
    rule: u32,
    n: u32,
    matched: u32,
    perm: &[u32],
    u: &[f64],
    v: &[f64],
    cmax: &[f64],
    col_ptr: &[u32],
    row_idx: &[u32],
    values: &[f64],
    logs: &[f64],
    factors: &mut [f64],
    work: &mut [u32],
    unmatched: &mut [u32],
) -> Result<(), Refusal> {
    lent!(suontarvi_log_factors_by_rule(
        rule, n, matched; perm, u, v, cmax, col_ptr, row_idx, values, logs; factors, work, unmatched
    ))
}

/// The chooser by the number of a choice; an unknown number is refused with 5. `info`, 2 places, gets what was done.
#[allow(clippy::too_many_arguments)] // those of the C call
pub fn scaling(
    choice: u32,
    n: u32,
    col_ptr: &[u32],
    row_idx: &[u32],
    values: &[f64],
    external: &[f64],
    logs: &[f64],
    factors: &mut [f64],
    maxima: &mut [f64],
    graph_ptr: &mut [u32],
    graph_rows: &mut [u32],
    cost: &mut [f64],
    cmax: &mut [f64],
    graph_work: &mut [u32],
    perm: &mut [u32],
    u: &mut [f64],
    v: &mut [f64],
    match_work: &mut [u32],
    distances: &mut [f64],
    factor_work: &mut [u32],
    info: &mut [u32],
) -> Result<(), Refusal> {
    lent!(suontarvi_scaling(choice, n; col_ptr, row_idx, values, external, logs;
        factors, maxima, graph_ptr, graph_rows, cost, cmax, graph_work,
        perm, u, v, match_work, distances, factor_work, info))
}
