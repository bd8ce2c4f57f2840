//! Scaling of symmetric matrices: inf-norm factors, and the chooser. [`SymmetricMatrix`](crate::SymmetricMatrix) has
//! the same without lent slices.

use crate::{Refusal, raw};

/// The choices of [`scaling`], in the order of their numbers.
#[derive(Debug, Clone, Copy, PartialEq, Eq, Hash)]
#[repr(u32)]
pub enum Choice {
    /// Iterated inf-norm factors.
    InfNorm = 0,
    /// One-pass inf-norm factors.
    OnePassInfNorm = 1,
    /// MC64: the log factors of the match of the symmetric cost graph.
    Mc64Symmetric = 2,
    /// Factors of 1.0.
    Identity = 3,
    /// Refused with 12; the choice is still known, so that old jobs can be opened.
    External = 4,
}

impl From<Choice> for u32 {
    fn from(choice: Choice) -> u32 {
        choice as u32
    }
}

/// What [`scaling`] did.
#[derive(Debug, Clone, Copy, PartialEq, Eq, Hash)]
pub enum Done {
    /// The factors apply.
    Applied,
    /// They apply to the matched columns only; with the number of unmatched columns.
    PartialSingular(u32),
    /// There is nothing to apply: identity.
    NotApplied,
}

impl Done {
    /// What two places of `info` say.
    ///
    /// ```
    /// use suontarvi::scaling::Done;
    ///
    /// assert_eq!(Done::from_info([1, 4]), Done::PartialSingular(4));
    /// ```
    pub const fn from_info(info: [u32; 2]) -> Done {
        match info {
            [0, _] => Done::Applied,
            [1, unmatched] => Done::PartialSingular(unmatched),
            _ => Done::NotApplied,
        }
    }
}

/// The iterated inf-norm factors: scaling by them from both sides brings each row's largest magnitude near to 1.
///
/// Lengths: `col_ptr` n+1; `values` as `row_idx`; `factors`, `work` n. Refusals: those of a symmetric matrix.
///
/// ```
/// use suontarvi::{Refusal, scaling};
///
/// let mut factors = [0.0];
/// scaling::infnorm(1, &[0, 1], &[0], &[4.0], &mut factors, &mut [0.0])?;
/// assert_eq!(factors, [0.5]);
/// # Ok::<(), Refusal>(())
/// ```
pub fn infnorm(
    n: u32,
    col_ptr: &[u32],
    row_idx: &[u32],
    values: &[f64],
    factors: &mut [f64],
    work: &mut [f64],
) -> Result<(), Refusal> {
    lent!(suontarvi_infnorm(n; col_ptr, row_idx, values; factors, work))
}

/// The one-pass inf-norm factors: 1.0 over the root of the row's largest magnitude.
///
/// Lengths and refusals: as [`infnorm`], without `work`.
///
/// ```
/// use suontarvi::{Refusal, scaling};
///
/// let mut factors = [0.0; 2];
/// scaling::onepass(2, &[0, 1, 1], &[0], &[16.0], &mut factors)?;
/// assert_eq!(factors, [0.25, 1.0]);
/// # Ok::<(), Refusal>(())
/// ```
pub fn onepass(n: u32, col_ptr: &[u32], row_idx: &[u32], values: &[f64], factors: &mut [f64]) -> Result<(), Refusal> {
    lent!(suontarvi_onepass(n; col_ptr, row_idx, values; factors))
}

/// The factors of the choice, log factors for MC64. Every choice but the external one uses the matrix and `factors`;
/// the iterated kind uses `maxima`; MC64 uses `logs` and the slices from `graph_ptr` to `factor_work`. A slice that the
/// choice does not use may be empty; `external` is never read.
///
/// Lengths: those of [`infnorm`] (`maxima` is its work), of [`symmetric_graph`](crate::graphs::symmetric_graph), of
/// [`hungarian_match`](crate::matching::hungarian_match) (`match_work` and `distances` are its work) and of
/// [`log_factors`](crate::factors::log_factors). Refusals: those of a symmetric matrix, 3 for the slices of the choice;
/// for MC64 then at each entry as stored 9, then 8. The external choice: 1, 2, 12.
///
/// ```
/// use suontarvi::scaling::{Choice, Done, scaling};
/// use suontarvi::Refusal;
///
/// let mut factors = [0.0];
/// let done = scaling(
///     Choice::OnePassInfNorm, 1, &[0, 1], &[0], &[4.0], &[], &[], &mut factors, &mut [], &mut [], &mut [],
///     &mut [], &mut [], &mut [], &mut [], &mut [], &mut [], &mut [], &mut [], &mut [],
/// )?;
/// assert_eq!((done, factors), (Done::Applied, [0.5]));
/// # Ok::<(), Refusal>(())
/// ```
#[allow(clippy::too_many_arguments)] // those of the C call
pub fn scaling(
    choice: Choice,
    n: u32,
    col_ptr: &[u32],
    row_idx: &[u32],
    values: &[f64],
    external: &[f64],
    logs: &[f64],
    factors: &mut [f64],
    maxima: &mut [f64],
    graph_ptr: &mut [u32],
    graph_rows: &mut [u32],
    cost: &mut [f64],
    cmax: &mut [f64],
    graph_work: &mut [u32],
    perm: &mut [u32],
    u: &mut [f64],
    v: &mut [f64],
    match_work: &mut [u32],
    distances: &mut [f64],
    factor_work: &mut [u32],
) -> Result<Done, Refusal> {
    let (choice, mut info) = (choice.into(), [0; 2]);
    raw::scaling(
        choice,
        n,
        col_ptr,
        row_idx,
        values,
        external,
        logs,
        factors,
        maxima,
        graph_ptr,
        graph_rows,
        cost,
        cmax,
        graph_work,
        perm,
        u,
        v,
        match_work,
        distances,
        factor_work,
        &mut info,
    )?;
    Ok(Done::from_info(info))
}
