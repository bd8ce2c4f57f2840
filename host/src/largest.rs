//! Whether a matching is largest, and which columns compete for which rows if it is not complete.

use crate::{CostGraph, GeneralMatrix, Refusal, matching};

/// A largest matching, by [`CostGraph::check_largest`], and the marks that show it: every entry of a marked column is
/// in a marked row, every marked row is paired with a marked column, and there are [`empty`](Largest::empty) more
/// marked columns than marked rows.
#[derive(Debug, Clone, PartialEq, Eq)]
pub struct Largest {
    /// Whether each column is marked: an alternating path leads to it from a column without a row.
    pub columns: Vec<bool>,
    /// Whether each row is marked: an entry of a marked column is in it.
    pub rows: Vec<bool>,
    /// The number of pairs.
    pub matched: u32,
}

/// Columns that have entries only in these rows, which are fewer: some stay empty in every matching. Both rise, from 0.
#[derive(Debug, Clone, PartialEq, Eq)]
pub struct Shortage {
    /// The columns.
    pub columns: Vec<usize>,
    /// All rows in which they have entries.
    pub rows: Vec<usize>,
}

impl Largest {
    /// The marked columns, rising.
    ///
    /// ```
    /// use suontarvi::{CostGraph, Refusal};
    ///
    /// let graph = CostGraph::from_entries(3, [(1, 0, 0.0), (0, 1, 0.0), (1, 2, 0.0)])?;
    /// let largest = graph.check_largest(&graph.matching().perm)?;
    /// assert_eq!(largest.marked_columns().collect::<Vec<_>>(), [0, 2]);
    /// assert_eq!(largest.marked_rows().collect::<Vec<_>>(), [1]);
    /// # Ok::<(), Refusal>(())
    /// ```
    pub fn marked_columns(&self) -> impl Iterator<Item = usize> {
        marked(&self.columns)
    }

    /// The marked rows, rising: all rows in which the marked columns have entries.
    ///
    /// ```
    /// use suontarvi::{CostGraph, Refusal};
    ///
    /// // an empty column is marked, and needs no row for it
    /// let largest = CostGraph::from_entries(1, [])?.check_largest(&[suontarvi::NONE])?;
    /// assert_eq!((largest.marked_columns().count(), largest.marked_rows().count()), (1, 0));
    /// # Ok::<(), Refusal>(())
    /// ```
    pub fn marked_rows(&self) -> impl Iterator<Item = usize> {
        marked(&self.rows)
    }

    /// How many columns stay without a row in every matching, and as many rows without a column.
    ///
    /// ```
    /// use suontarvi::{CostGraph, Refusal};
    ///
    /// let graph = CostGraph::from_entries(3, [(1, 0, 0.0), (1, 1, 0.0), (1, 2, 0.0)])?;
    /// assert_eq!(graph.check_largest(&graph.matching().perm)?.empty(), 2);
    /// # Ok::<(), Refusal>(())
    /// ```
    pub fn empty(&self) -> usize {
        self.columns.len().saturating_sub(self.matched as usize)
    }

    /// Whether every column has a row; then nothing is marked.
    ///
    /// ```
    /// use suontarvi::{CostGraph, Refusal};
    ///
    /// let largest = CostGraph::from_entries(1, [(0, 0, 4.0)])?.check_largest(&[0])?;
    /// assert!(largest.is_complete() && largest.marked_columns().count() == 0);
    /// # Ok::<(), Refusal>(())
    /// ```
    pub fn is_complete(&self) -> bool {
        self.empty() == 0
    }
}

fn marked(marks: &[bool]) -> impl Iterator<Item = usize> {
    marks.iter().enumerate().filter(|(_, mark)| **mark).map(|(at, _)| at)
}

impl Shortage {
    /// How many of its columns stay without a row in every matching: at least one.
    ///
    /// ```
    /// assert_eq!(suontarvi::Shortage { columns: vec![2, 7, 8], rows: vec![1, 4] }.empty(), 1);
    /// ```
    pub fn empty(&self) -> usize {
        self.columns.len().saturating_sub(self.rows.len())
    }
}

impl CostGraph {
    /// Checks whether a matching, whoever made it, is largest, and says why; costs play no part. `perm` has the row of
    /// each column or [`NONE`](crate::NONE). Every match that was found here is accepted.
    ///
    /// Refused with 3 if its n differs; with 30 if a row is not below n or occurs twice, or a pair is not an entry;
    /// with 33 if another matching has more pairs.
    ///
    /// ```
    /// use suontarvi::{CostGraph, NONE, Refusal};
    ///
    /// let graph = CostGraph::from_entries(2, [(0, 0, 1.0), (0, 1, 2.0)])?;
    /// let largest = graph.check_largest(&[NONE, 0])?;
    /// assert_eq!((largest.columns, largest.rows, largest.matched), (vec![true; 2], vec![true, false], 1));
    /// assert_eq!(graph.check_largest(&[NONE, NONE]), Err(Refusal::NotLargest));
    /// assert_eq!(graph.check_largest(&[0, 0]), Err(Refusal::IncompleteMatching));
    /// # Ok::<(), Refusal>(())
    /// ```
    pub fn check_largest(&self, perm: &[u32]) -> Result<Largest, Refusal> {
        checked(self.n(), self.col_ptr(), self.row_idx(), perm)
    }

    /// Which columns compete for which rows, so that a largest matching is not complete: the marked columns and rows of
    /// [`check_largest`](CostGraph::check_largest), cut into parts that have no entry in common, those of fewest
    /// columns first. There are none if the matching is complete. Refused as `check_largest` is.
    ///
    /// ```
    /// use suontarvi::{CostGraph, Refusal, Shortage};
    ///
    /// // columns 0, 2 and 3 have entries in rows 1 and 3 alone, and column 4 has none
    /// let entries = [(1, 0), (3, 0), (0, 1), (1, 2), (3, 2), (1, 3), (3, 3)];
    /// let graph = CostGraph::from_entries(5, entries.map(|(row, column)| (row, column, 0.0)))?;
    /// let parts = graph.shortages(&graph.matching().perm)?;
    /// assert_eq!(parts[0], Shortage { columns: vec![4], rows: vec![] });
    /// assert_eq!(parts[1], Shortage { columns: vec![0, 2, 3], rows: vec![1, 3] });
    /// # Ok::<(), Refusal>(())
    /// ```
    pub fn shortages(&self, perm: &[u32]) -> Result<Vec<Shortage>, Refusal> {
        let largest = self.check_largest(perm)?;
        Ok(parts(self, &largest))
    }
}

impl GeneralMatrix {
    /// The same as [`CostGraph::check_largest`] for the stored places of the matrix, whatever their values: a stored
    /// zero is an entry here, but not in a cost graph.
    ///
    /// ```
    /// use suontarvi::{GeneralMatrix, NONE, Refusal};
    ///
    /// let matrix = GeneralMatrix::from_entries(2, [(0, 0, 5.0), (1, 1, 0.0)])?;
    /// assert_eq!(matrix.check_largest(&[0, 1])?.matched, 2);
    /// assert_eq!(matrix.check_largest(&[0, NONE]), Err(Refusal::NotLargest));
    /// assert_eq!(matrix.whole_cost_graph()?.check_largest(&[0, NONE])?.matched, 1);
    /// # Ok::<(), Refusal>(())
    /// ```
    pub fn check_largest(&self, perm: &[u32]) -> Result<Largest, Refusal> {
        checked(self.n(), self.col_ptr(), self.row_idx(), perm)
    }
}

/// Of a matrix or a graph that was tested.
fn checked(n: usize, col_ptr: &[u32], row_idx: &[u32], perm: &[u32]) -> Result<Largest, Refusal> {
    let (mut columns, mut rows) = (vec![0; n], vec![0; n]);
    let matched = matching::check_largest(n as u32, col_ptr, row_idx, perm, &mut columns, &mut rows)?;
    let marks = |marks: Vec<u32>| marks.into_iter().map(|mark| mark != 0).collect();
    Ok(Largest { columns: marks(columns), rows: marks(rows), matched })
}

/// The connected parts of the marked columns, each joined to the rows of its entries.
fn parts(graph: &CostGraph, largest: &Largest) -> Vec<Shortage> {
    let index = graph.row_index();
    let (mut columns, mut rows) = (largest.columns.clone(), largest.rows.clone());
    let mut found = Vec::new();
    while let Some(first) = columns.iter().position(|mark| *mark) {
        columns[first] = false;
        let mut part = Shortage { columns: vec![first], rows: Vec::new() };
        let mut at = 0;
        while let Some(&column) = part.columns.get(at) {
            let places = graph.col_ptr()[column] as usize..graph.col_ptr()[column + 1] as usize;
            for row in graph.row_idx()[places].iter().map(|&row| row as usize) {
                if std::mem::take(&mut rows[row]) {
                    part.rows.push(row);
                    let joined = index.row(row).map(|(column, _)| column);
                    part.columns.extend(joined.filter(|&column| std::mem::take(&mut columns[column])));
                }
            }
            at += 1;
        }
        part.columns.sort_unstable();
        part.rows.sort_unstable();
        found.push(part);
    }
    found.sort_by_key(|part| part.columns.len());
    found
}

#[cfg(test)]
mod tests {
    use super::*;
    use crate::NONE;

    /// A few digits that look random.
    fn next(seed: &mut u64) -> usize {
        *seed = seed.wrapping_mul(6364136223846793005).wrapping_add(1442695040888963407);
        (*seed >> 33) as usize
    }

    fn random(seed: &mut u64) -> CostGraph {
        let n = next(seed) % 9;
        let per_mille = [100, 200, 400][next(seed) % 3];
        let places = (0..n * n).filter(|_| next(seed) % 1000 < per_mille);
        let entries: Vec<(u32, u32, f64)> =
            places.map(|place| ((place % n.max(1)) as u32, (place / n.max(1)) as u32, 0.0)).collect();
        CostGraph::from_entries(n, entries).unwrap()
    }

    /// The rows of a column.
    fn rows_of(graph: &CostGraph, column: usize) -> Vec<usize> {
        let places = graph.col_ptr()[column] as usize..graph.col_ptr()[column + 1] as usize;
        graph.row_idx()[places].iter().map(|&row| row as usize).collect()
    }

    /// Every match of ours is accepted; the parts are those of the marks, disjoint, and Hall's condition fails in each.
    #[test]
    fn the_parts_of_our_matches() {
        let mut seed = 1;
        let mut several = 0;
        for _ in 0..3000 {
            let graph = random(&mut seed);
            let found = graph.matching();
            let largest = graph.check_largest(&found.perm).unwrap();
            assert_eq!((largest.matched, largest.is_complete()), (found.matched, found.is_complete()));
            let parts = graph.shortages(&found.perm).unwrap();
            let of_parts = |of: fn(&Shortage) -> &[usize]| {
                let mut all: Vec<usize> = parts.iter().flat_map(|part| of(part).to_vec()).collect();
                all.sort_unstable();
                all
            };
            assert_eq!(of_parts(|part| &part.columns), largest.marked_columns().collect::<Vec<_>>());
            assert_eq!(of_parts(|part| &part.rows), largest.marked_rows().collect::<Vec<_>>());
            assert_eq!(parts.iter().map(Shortage::empty).sum::<usize>(), largest.empty());
            for part in &parts {
                let mut rows: Vec<usize> = part.columns.iter().flat_map(|&column| rows_of(&graph, column)).collect();
                rows.sort_unstable();
                rows.dedup();
                assert_eq!(rows, part.rows);
                assert!(part.empty() > 0);
            }
            assert!(parts.is_sorted_by_key(|part| part.columns.len()));
            several += usize::from(parts.len() > 1);
        }
        assert!(several > 300, "{several}");
    }

    #[test]
    fn what_is_refused() {
        let graph = CostGraph::from_entries(2, [(0, 0, 1.0), (1, 0, 1.0), (0, 1, 1.0)]).unwrap();
        let number = |perm: &[u32]| graph.check_largest(perm).map(|largest| largest.matched);
        assert_eq!(number(&[1, 0]), Ok(2));
        assert_eq!(number(&[0, NONE]), Err(Refusal::NotLargest));
        assert_eq!(number(&[1]), Err(Refusal::SliceLength));
        for perm in [[0, 0], [0, 1], [2, 0], [NONE - 1, 0]] {
            assert_eq!(number(&perm), Err(Refusal::IncompleteMatching), "{perm:?}");
            assert_eq!(graph.shortages(&perm), Err(Refusal::IncompleteMatching));
        }
        let none = CostGraph::from_entries(0, []).unwrap();
        let largest = none.check_largest(&[]).unwrap();
        assert_eq!((largest.matched, largest.empty(), none.shortages(&[])), (0, 0, Ok(vec![])));
    }
}
