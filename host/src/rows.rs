//! The row index of a cost graph by columns: for each row its columns, rising, with the place of each entry.
//! [`CostGraph::row_index`](crate::CostGraph::row_index) has the same without lent slices.

use crate::Refusal;

/// The row index into lent slices: row i has the index's places from `row_ptr[i]` up to `row_ptr[i+1]`; at each of them
/// `cols` has the column and `places` the place of that entry among the graph's. It holds until rows or pointers of the
/// graph change; costs may change.
///
/// Lengths: `col_ptr`, `row_ptr` n+1; `cost`, `cols`, `places` as `row_idx`; `work` n. Refusals: those of the
/// [match](crate::matching::hungarian_match).
///
/// ```
/// use suontarvi::{Refusal, rows};
///
/// let (mut row_ptr, mut cols, mut places, mut work) = ([0; 3], [0; 3], [0; 3], [0; 2]);
/// rows::row_index(
///     2, &[0, 2, 3], &[0, 1, 0], &[0.0; 3], &mut row_ptr, &mut cols, &mut places, &mut work,
/// )?;
/// let row_0: Vec<_> = rows::entries_of_row(0, &row_ptr, &cols, &places).collect();
/// assert_eq!(row_0, [(0, 0), (1, 2)]);
/// # Ok::<(), Refusal>(())
/// ```
#[allow(clippy::too_many_arguments)] // those of the C call
pub fn row_index(
    n: u32,
    col_ptr: &[u32],
    row_idx: &[u32],
    cost: &[f64],
    row_ptr: &mut [u32],
    cols: &mut [u32],
    places: &mut [u32],
    work: &mut [u32],
) -> Result<(), Refusal> {
    lent!(suontarvi_row_index(n; col_ptr, row_idx, cost; row_ptr, cols, places, work))
}

/// The entries of one row by an index that [`row_index`] left: the column of each, rising, and its place among the
/// graph's entries. A row at or above n has no entries, and neither has one whose pointers do not fit the other slices.
///
/// ```
/// use suontarvi::rows;
///
/// assert_eq!(rows::entries_of_row(7, &[0, 1], &[0], &[0]).next(), None);
/// assert_eq!(rows::entries_of_row(0, &[0, 9], &[0], &[0]).next(), None);
/// ```
pub fn entries_of_row<'a>(
    row: u32,
    row_ptr: &[u32],
    cols: &'a [u32],
    places: &'a [u32],
) -> impl Iterator<Item = (u32, u32)> + use<'a> {
    let stretch = match row_ptr.get(row as usize..).unwrap_or_default() {
        [start, end, ..] => *start as usize..*end as usize,
        _ => 0..0,
    };
    let cols = cols.get(stretch.clone()).unwrap_or_default();
    let places = places.get(stretch).unwrap_or_default();
    cols.iter().copied().zip(places.iter().copied())
}

#[cfg(test)]
mod tests {
    use super::entries_of_row;

    #[test]
    fn pointers_that_do_not_fit() {
        let count =
            |row, row_ptr: &[u32], cols: &[u32], places: &[u32]| entries_of_row(row, row_ptr, cols, places).count();
        assert_eq!(count(0, &[0, 2], &[3, 4], &[5, 6]), 2);
        for row in [0, 1, 2, u32::MAX] {
            for row_ptr in [&[][..], &[0], &[0, 9], &[2, 1, 0], &[u32::MAX, u32::MAX, 0], &[9, 9, 9]] {
                assert_eq!(count(row, row_ptr, &[3, 4], &[5, 6]), 0, "{row} {row_ptr:?}");
            }
        }
        assert_eq!([count(0, &[0, 2], &[3, 4], &[5]), count(0, &[0, 2], &[3], &[5, 6])], [0, 0]);
    }
}
