//! A match as a sheet file, to keep it or to send it; no bit of u, v or cmax changes. The header describes the file.
//! [`Matching`](crate::Matching) has the same without lent slices.

use crate::lengths::MAX_N;
use crate::{Refusal, raw};

/// Either reader.
pub type Reader = fn(&[u8], &mut [u32], &mut [f64], &mut [f64], &mut [f64]) -> Result<u32, Refusal>;

/// The n that a file states, which is the length of the slices to read it into; none if the file has no n, or one above
/// the limit.
///
/// ```
/// assert_eq!(suontarvi::sheets::columns(&[3, 0]), Some(3));
/// assert_eq!(suontarvi::sheets::columns(&[3]), None);
/// ```
pub fn columns(sheet: &[u8]) -> Option<usize> {
    let stated = sheet.first_chunk().map(|two| u16::from_le_bytes(*two))?;
    Some(usize::from(stated)).filter(|n| *n <= MAX_N)
}

/// Writes the file of a match and returns its length; `sheet` keeps what it held past it. Equal matches have equal
/// bytes.
///
/// Lengths: `perm`, `u`, `v`, `cmax` n; `sheet` [`sheet`](crate::lengths::sheet). Refusals: 1, 3, 10.
///
/// ```
/// use suontarvi::{Refusal, lengths, sheets};
///
/// let mut sheet = [0; lengths::sheet(1)];
/// let used = sheets::write_sheet(1, 1, &[0], &[0.0], &[0.0], &[0.0], &mut sheet)?;
/// // n, then column 0 with its row
/// assert_eq!(sheet[..used], [1, 0, 0, 0, 1, 0, 0]);
/// # Ok::<(), Refusal>(())
/// ```
pub fn write_sheet(
    n: u32,
    matched: u32,
    perm: &[u32],
    u: &[f64],
    v: &[f64],
    cmax: &[f64],
    sheet: &mut [u8],
) -> Result<usize, Refusal> {
    let mut used = [0];
    raw::write_sheet(n, matched, perm, u, v, cmax, sheet, &mut used)?;
    Ok(used[0] as usize)
}

/// Reads a file whose records come in any order, and returns the matched count.
///
/// Lengths: `perm`, `u`, `v`, `cmax` the file's n ([`columns`]). Refusals: 40 of n; 3; record by record 40, then 41,
/// then 42.
///
/// ```
/// use suontarvi::{Refusal, sheets};
///
/// let (mut perm, mut u, mut v, mut cmax) = ([9], [9.0], [9.0], [9.0]);
/// let matched = sheets::read_sheet(&[1, 0, 0, 0, 1, 0, 0], &mut perm, &mut u, &mut v, &mut cmax)?;
/// assert_eq!((matched, perm, u), (1, [0], [0.0]));
/// # Ok::<(), Refusal>(())
/// ```
pub fn read_sheet(
    sheet: &[u8],
    perm: &mut [u32],
    u: &mut [f64],
    v: &mut [f64],
    cmax: &mut [f64],
) -> Result<u32, Refusal> {
    let mut answer = [0; 2];
    raw::read_sheet(sheet, perm, u, v, cmax, &mut answer)?;
    Ok(answer[1])
}

/// Reads a file that [`write_sheet`] could have written; any other is refused, record by record with 40, then 41, then
/// 45, then 44. All else as [`read_sheet`].
///
/// ```
/// use suontarvi::{Refusal, sheets};
///
/// // a record without a field
/// let refused = sheets::read_canonical_sheet(&[1, 0, 0, 0, 0], &mut [9], &mut [9.0], &mut [9.0], &mut [9.0]);
/// assert_eq!(refused, Err(Refusal::NeedlessField));
/// ```
pub fn read_canonical_sheet(
    sheet: &[u8],
    perm: &mut [u32],
    u: &mut [f64],
    v: &mut [f64],
    cmax: &mut [f64],
) -> Result<u32, Refusal> {
    let mut answer = [0; 2];
    raw::read_canonical_sheet(sheet, perm, u, v, cmax, &mut answer)?;
    Ok(answer[1])
}
