//! The match of a cost graph; and, for a match that others made, the check, the gap, and whether it is largest.

use crate::lengths::MATCH_ANSWER;
use crate::{Refusal, raw};

/// No row, in `perm`.
pub const NONE: u32 = u32::MAX;

/// What a match was and what it took.
#[derive(Debug, Clone, Copy, PartialEq, Eq, Default)]
pub struct Match {
    /// The number of pairs.
    pub matched: u32,
    /// What the match took.
    pub counts: Counts,
}

/// How hard a match was. The defined steps fix each count, so it is the same everywhere.
#[derive(Debug, Clone, Copy, PartialEq, Eq, Default)]
pub struct Counts {
    /// Heap slots set.
    pub heap_slots: u64,
    /// Searches for a path, one from each column that was left free.
    pub searches: u64,
    /// Rows touched.
    pub rows_touched: u64,
    /// Inner steps of the third phase.
    pub inner_steps: u64,
    /// Entries scanned in the searches: at most searches times entries.
    pub entries_scanned: u64,
    /// Rows popped from the heap: at most searches times n.
    pub rows_popped: u64,
    /// The largest size of the heap: at most n.
    pub largest_heap: u64,
}

impl Match {
    fn from_answer([matched, counts @ ..]: [u64; MATCH_ANSWER]) -> Match {
        let [heap_slots, searches, rows_touched, inner_steps, entries_scanned, rows_popped, largest_heap] = counts;
        let counts =
            Counts { heap_slots, searches, rows_touched, inner_steps, entries_scanned, rows_popped, largest_heap };
        Match { matched: matched as u32, counts }
    }
}

/// The match into lent slices: `perm` gets the row of each column or [`NONE`], `u` the duals of rows, `v` those of
/// columns.
///
/// Lengths: `col_ptr` n+1; `cost` as `row_idx`; `perm`, `u`, `v` n; `work`
/// [`match_work`](crate::lengths::match_work), `fwork` [`match_fwork`](crate::lengths::match_fwork).
/// Refusals: 1, 2, 3, 4, at each entry 5, then 7; then 8.
///
/// ```
/// use suontarvi::{Refusal, lengths, matching};
///
/// let (mut perm, mut u, mut v) = ([0; 2], [0.0; 2], [0.0; 2]);
/// let (mut work, mut fwork) = ([0; lengths::match_work(2)], [0.0; lengths::match_fwork(2)]);
/// let found = matching::hungarian_match(
///     2, &[0, 2, 4], &[0, 1, 0, 1], &[0.0, 3.0, 0.0, 5.0], &mut perm, &mut u, &mut v, &mut work, &mut fwork,
/// )?;
/// assert_eq!((found.matched, perm, u, v), (2, [1, 0], [0.0, 3.0], [0.0, 0.0]));
/// # Ok::<(), Refusal>(())
/// ```
#[allow(clippy::too_many_arguments)] // those of the C call
pub fn hungarian_match(
    n: u32,
    col_ptr: &[u32],
    row_idx: &[u32],
    cost: &[f64],
    perm: &mut [u32],
    u: &mut [f64],
    v: &mut [f64],
    work: &mut [u32],
    fwork: &mut [f64],
) -> Result<Match, Refusal> {
    let mut answer = [0; MATCH_ANSWER];
    raw::hungarian_match(n, col_ptr, row_idx, cost, perm, u, v, work, fwork, &mut answer)?;
    Ok(Match::from_answer(answer))
}

/// The same for comparison: slices as bytes, low byte first, smaller limits, no work.
///
/// ```
/// use suontarvi::{Refusal, matching};
///
/// let (mut perm, mut u, mut v, mut answer) = ([9; 4], [9; 8], [9; 8], [9; 64]);
/// matching::hungarian_match_bytes(
///     1, &[0, 0, 0, 0, 1, 0, 0, 0], &[0; 4], &7f64.to_le_bytes(), &mut perm, &mut u, &mut v, &mut answer,
/// )?;
/// assert_eq!((perm, f64::from_le_bytes(u), answer[0]), ([0; 4], 7.0, 1));
/// # Ok::<(), Refusal>(())
/// ```
#[allow(clippy::too_many_arguments)] // those of the C call
pub fn hungarian_match_bytes(
    n: u32,
    col_ptr: &[u8],
    row_idx: &[u8],
    cost: &[u8],
    perm: &mut [u8],
    u: &mut [u8],
    v: &mut [u8],
    answer: &mut [u8],
) -> Result<(), Refusal> {
    lent!(suontarvi_match_bytes(n; col_ptr, row_idx, cost; perm, u, v, answer))
}

/// Checks whether a pairing with whole duals, whoever made them, is a complete matching of least total and the duals
/// show it. No search is made and nothing is written.
///
/// Lengths: `col_ptr` n+1; `cost` as `row_idx`; `perm`, `u`, `v` n. Refusals: as [`hungarian_match`], with 8 also for a
/// cost that is not whole; then, each over the whole pairing, 30, 31, 32.
///
/// ```
/// use suontarvi::{Refusal, matching};
///
/// let check = |perm: [u32; 2]| {
///     let (col_ptr, row_idx, cost) = ([0, 2, 4], [0, 1, 0, 1], [0.0, 3.0, 0.0, 5.0]);
///     matching::check_match(2, &col_ptr, &row_idx, &cost, &perm, &[0.0, 3.0], &[0.0, 0.0])
/// };
/// assert_eq!(check([1, 0]), Ok(()));
/// assert_eq!(check([0, 1]), Err(Refusal::LoosePair));
/// ```
pub fn check_match(
    n: u32,
    col_ptr: &[u32],
    row_idx: &[u32],
    cost: &[f64],
    perm: &[u32],
    u: &[f64],
    v: &[f64],
) -> Result<(), Refusal> {
    lent!(suontarvi_check_match(n; col_ptr, row_idx, cost, perm, u, v;))
}

/// How far a pairing with duals, whoever made them, can be from the least total, in steps of 2^-digits. The pairs are a
/// complete matching, and their total is at most that of every complete matching plus these steps, exactly. No search
/// is made. A match that [`check_match`] also accepts has the gap 0.
///
/// Lengths: `col_ptr` n+1; `cost` as `row_idx`; `perm`, `u`, `v` n. Refusals: 5 for digits above 50, before all else;
/// as [`hungarian_match`], with 8 also for a cost of more than 2^49 steps; then 30; then 31 for a dual that is not
/// finite or has more than 2^49 steps in size. So duals beyond 2^49 are refused at every digits, although
/// [`check_match`] takes them up to 2^50.
///
/// ```
/// use suontarvi::{Refusal, matching};
///
/// let gap = |digits: u32, perm: [u32; 2]| {
///     let (col_ptr, row_idx, cost) = ([0, 2, 4], [0, 1, 0, 1], [0.0, 3.0, 0.0, 5.0]);
///     matching::match_gap(2, digits, &col_ptr, &row_idx, &cost, &perm, &[0.0, 3.0], &[0.0, 0.0])
/// };
/// assert_eq!(gap(0, [1, 0]), Ok(0));
/// // 2 from least, in steps of 1 and of 1/16
/// assert_eq!((gap(0, [0, 1]), gap(4, [0, 1])), (Ok(2), Ok(32)));
/// assert_eq!(gap(0, [0, 0]), Err(Refusal::IncompleteMatching));
/// // 5 is more than 2^49 steps of 2^-47
/// assert_eq!(gap(47, [1, 0]), Err(Refusal::CostRange));
/// ```
#[allow(clippy::too_many_arguments)] // those of the C call
pub fn match_gap(
    n: u32,
    digits: u32,
    col_ptr: &[u32],
    row_idx: &[u32],
    cost: &[f64],
    perm: &[u32],
    u: &[f64],
    v: &[f64],
) -> Result<u64, Refusal> {
    let mut gap = [0];
    raw::match_gap(n, digits, col_ptr, row_idx, cost, perm, u, v, &mut gap)?;
    Ok(gap[0])
}

/// Checks whether a matching of a pattern, whoever made it, is largest, and shows why. `perm` has the row of each
/// column or [`NONE`]. The answer is the number of pairs. `columns` and `rows` get 1 where an alternating path leads
/// from a column without a row, else 0: every entry of a marked column is in a marked row, and the marked columns
/// outnumber the marked rows by the number of columns without a row. At least that many columns stay empty in every
/// matching.
///
/// Lengths: `col_ptr` n+1; `perm`, `columns`, `rows` n. Refusals: 1, 2, 3, 4, at each entry 5, then 7; then 30, for an
/// entry of `perm` that is neither [`NONE`] nor below n, a row twice, or a pair that is not an entry; then 33 if
/// another matching has more pairs.
///
/// ```
/// use suontarvi::{NONE, Refusal, matching};
///
/// // the columns 0 and 2 have entries in row 1 alone
/// let (mut columns, mut rows) = ([0; 3], [0; 3]);
/// let mut check = |perm: [u32; 3]| {
///     matching::check_largest(3, &[0, 1, 3, 4], &[1, 0, 2, 1], &perm, &mut columns, &mut rows)
/// };
/// assert_eq!(check([1, NONE, NONE]), Err(Refusal::NotLargest));
/// assert_eq!(check([1, 0, 1]), Err(Refusal::IncompleteMatching));
/// assert_eq!(check([1, 2, NONE]), Ok(2));
/// assert_eq!((columns, rows), ([1, 0, 1], [0, 1, 0]));
/// ```
pub fn check_largest(
    n: u32,
    col_ptr: &[u32],
    row_idx: &[u32],
    perm: &[u32],
    columns: &mut [u32],
    rows: &mut [u32],
) -> Result<u32, Refusal> {
    let mut matched = [0];
    raw::check_largest(n, col_ptr, row_idx, perm, columns, rows, &mut matched)?;
    Ok(matched[0])
}
