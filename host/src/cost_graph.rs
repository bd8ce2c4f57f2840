//! A cost graph that owns its vectors, and its row index.

use crate::columns::number;
use crate::lengths::{graph_work, match_fwork, match_work, pointers};
use crate::{Columns, Matching, Refusal, Workspace, matching, rows};

/// A cost graph by columns, for the match. It was tested when it was made.
///
/// ```
/// use suontarvi::{CostGraph, Refusal};
///
/// // row, column and cost, from 0, in any order
/// let graph = CostGraph::from_entries(2, [(0, 0, 0.0), (1, 0, 3.0), (0, 1, 0.0), (1, 1, 5.0)])?;
/// let matching = graph.matching();
/// assert_eq!(matching.pairs().collect::<Vec<_>>(), [(1, 0), (0, 1)]);
/// assert_eq!(graph.check(&matching), Ok(()));
/// # Ok::<(), Refusal>(())
/// ```
#[derive(Debug, Clone, PartialEq)]
pub struct CostGraph {
    col_ptr: Vec<u32>,
    row_idx: Vec<u32>,
    cost: Vec<f64>,
    cmax: Vec<f64>,
}

/// The slices that a cost graph is built into: pointers, rows and work; costs and cmax.
pub(crate) struct Room<'a> {
    pub numbers: [&'a mut [u32]; 3],
    pub doubles: [&'a mut [f64]; 2],
}

impl CostGraph {
    /// The graph of these columns: pointers, rows and costs. Refused as the
    /// [match](matching::hungarian_match) does; then nothing later refuses the graph.
    ///
    /// ```
    /// use suontarvi::{CostGraph, Refusal};
    ///
    /// let graph = CostGraph::from_columns(1, vec![0, 1], vec![0], vec![7.0])?;
    /// assert_eq!(graph.matching().u, [7.0]);
    /// let refused = CostGraph::from_columns(1, vec![0, 2], vec![0], vec![7.0]);
    /// assert_eq!(refused, Err(Refusal::ColumnPointers));
    /// # Ok::<(), Refusal>(())
    /// ```
    pub fn from_columns(n: usize, col_ptr: Vec<u32>, row_idx: Vec<u32>, cost: Vec<f64>) -> Result<CostGraph, Refusal> {
        number(n)?;
        let graph = CostGraph { col_ptr, row_idx, cost, cmax: vec![0.0; n] };
        // the row index tests all of the graph
        graph.index()?;
        Ok(graph)
    }

    /// The graph of row, column and cost of each entry, from 0, in any order. Refused with 1 or 2; with 5 if an index
    /// is not below n; with 7 if a place is given twice; with 8.
    ///
    /// ```
    /// use suontarvi::{CostGraph, Refusal};
    ///
    /// let graph = CostGraph::from_entries(2, [(1, 1, 3.0), (0, 0, 2.0), (1, 0, 4.0)])?;
    /// assert_eq!((graph.n(), graph.col_ptr()), (2, &[0, 2, 3][..]));
    /// assert_eq!((graph.row_idx(), graph.cost()), (&[0, 1, 1][..], &[2.0, 4.0, 3.0][..]));
    /// let twice = CostGraph::from_entries(1, [(0, 0, 1.0), (0, 0, 1.0)]);
    /// assert_eq!(twice, Err(Refusal::RowsNotRising));
    /// # Ok::<(), Refusal>(())
    /// ```
    pub fn from_entries(n: usize, entries: impl IntoIterator<Item = (u32, u32, f64)>) -> Result<CostGraph, Refusal> {
        let Columns { col_ptr, row_idx, values } = Columns::sorted(n, entries)?;
        CostGraph::from_columns(n, col_ptr, row_idx, values)
    }

    /// The graph that a call builds, with room for this many entries.
    pub(crate) fn built(
        matrix: &Columns,
        room: usize,
        workspace: &mut Workspace,
        build: impl FnOnce(u32, Room) -> Result<usize, Refusal>,
    ) -> Result<CostGraph, Refusal> {
        let n = matrix.n();
        let mut graph = CostGraph {
            col_ptr: vec![0; pointers(n)],
            row_idx: vec![0; room],
            cost: vec![0.0; room],
            cmax: vec![0.0; n],
        };
        let work = workspace.numbers(graph_work(n, matrix.values.len()));
        let into = Room {
            numbers: [&mut graph.col_ptr, &mut graph.row_idx, work],
            doubles: [&mut graph.cost, &mut graph.cmax],
        };
        let kept = build(n as u32, into)?;
        graph.row_idx.truncate(kept);
        graph.cost.truncate(kept);
        Ok(graph)
    }

    /// The number of columns, and of rows.
    pub fn n(&self) -> usize {
        self.cmax.len()
    }

    /// The column pointers, n+1 of them.
    pub fn col_ptr(&self) -> &[u32] {
        &self.col_ptr
    }

    /// The row of each entry.
    pub fn row_idx(&self) -> &[u32] {
        &self.row_idx
    }

    /// The cost of each entry.
    pub fn cost(&self) -> &[f64] {
        &self.cost
    }

    /// The largest log of each column, from which its costs are measured; 0.0 in a graph that was not made from a
    /// matrix.
    pub fn cmax(&self) -> &[f64] {
        &self.cmax
    }

    /// The match: no matching of the graph has more pairs, and with whole costs no complete one has a lower total. It
    /// is never refused.
    ///
    /// ```
    /// use suontarvi::{CostGraph, NONE, Refusal};
    ///
    /// // two columns, one row
    /// let matching = CostGraph::from_entries(2, [(0, 0, 1.0), (0, 1, 2.0)])?.matching();
    /// assert_eq!((matching.matched, matching.perm), (1, vec![0, NONE]));
    /// # Ok::<(), Refusal>(())
    /// ```
    pub fn matching(&self) -> Matching {
        self.matching_with(&mut Workspace::new())
    }

    /// The same with work that is lent again.
    ///
    /// ```
    /// use suontarvi::{CostGraph, Refusal, Workspace};
    ///
    /// let graph = CostGraph::from_entries(1, [(0, 0, 4.0)])?;
    /// let mut workspace = Workspace::new();
    /// assert_eq!(graph.matching_with(&mut workspace), graph.matching());
    /// # Ok::<(), Refusal>(())
    /// ```
    pub fn matching_with(&self, workspace: &mut Workspace) -> Matching {
        let n = self.n();
        let (work, fwork) = workspace.lend(match_work(n), match_fwork(n));
        let mut found = Matching::room(n);
        let Matching { perm, u, v, .. } = &mut found;
        let (col_ptr, row_idx, cost) = (&self.col_ptr, &self.row_idx, &self.cost);
        let answer = matching::hungarian_match(n as u32, col_ptr, row_idx, cost, perm, u, v, work, fwork);
        let answer = answer.expect("the match takes every graph that was tested or built");
        found.matched = answer.matched;
        found.counts = Some(answer.counts);
        found.cmax.copy_from_slice(&self.cmax);
        found
    }

    /// Whether a matching, whoever made it, is complete and of least total, and its whole-number duals show it. No
    /// search is made. Refused with 3 if its n differs, with 8 if a cost is not whole, then with 30, 31 or 32.
    ///
    /// ```
    /// use suontarvi::{CostGraph, Refusal};
    ///
    /// let graph = CostGraph::from_entries(1, [(0, 0, 4.0)])?;
    /// let mut matching = graph.matching();
    /// assert_eq!(graph.check(&matching), Ok(()));
    /// matching.u[0] = 5.0;
    /// assert_eq!(graph.check(&matching), Err(Refusal::InfeasibleDuals));
    /// # Ok::<(), Refusal>(())
    /// ```
    pub fn check(&self, found: &Matching) -> Result<(), Refusal> {
        let (n, Matching { perm, u, v, .. }) = (self.n() as u32, found);
        matching::check_match(n, &self.col_ptr, &self.row_idx, &self.cost, perm, u, v)
    }

    /// For each row its entries.
    ///
    /// ```
    /// use suontarvi::{CostGraph, Refusal};
    ///
    /// let graph = CostGraph::from_entries(2, [(0, 0, 4.0), (1, 0, 5.0), (0, 1, 6.0)])?;
    /// let index = graph.row_index();
    /// let row_0: Vec<_> = index.row(0).map(|(column, place)| (column, graph.cost()[place])).collect();
    /// assert_eq!(row_0, [(0, 4.0), (1, 6.0)]);
    /// # Ok::<(), Refusal>(())
    /// ```
    pub fn row_index(&self) -> RowIndex {
        self.index().expect("the row index takes every graph that was tested or built")
    }

    fn index(&self) -> Result<RowIndex, Refusal> {
        let (n, count) = (self.n(), self.row_idx.len());
        let mut made = RowIndex { row_ptr: vec![0; pointers(n)], cols: vec![0; count], places: vec![0; count] };
        let RowIndex { row_ptr, cols, places } = &mut made;
        let (col_ptr, row_idx, cost) = (&self.col_ptr, &self.row_idx, &self.cost);
        rows::row_index(n as u32, col_ptr, row_idx, cost, row_ptr, cols, places, &mut vec![0; n])?;
        Ok(made)
    }
}

/// The row index of a cost graph, by [`CostGraph::row_index`].
#[derive(Debug, Clone, PartialEq, Eq)]
pub struct RowIndex {
    row_ptr: Vec<u32>,
    cols: Vec<u32>,
    places: Vec<u32>,
}

impl RowIndex {
    /// The entries of one row: the column of each, rising, and its place among the graph's entries. A row at or above n
    /// has no entries.
    ///
    /// ```
    /// use suontarvi::{CostGraph, Refusal};
    ///
    /// let index = CostGraph::from_entries(2, [(1, 0, 4.0), (1, 1, 5.0)])?.row_index();
    /// assert_eq!(index.row(1).collect::<Vec<_>>(), [(0, 0), (1, 1)]);
    /// assert_eq!(index.row(7).count(), 0);
    /// # Ok::<(), Refusal>(())
    /// ```
    pub fn row(&self, row: usize) -> impl Iterator<Item = (usize, usize)> {
        let row = u32::try_from(row).unwrap_or(u32::MAX);
        rows::entries_of_row(row, &self.row_ptr, &self.cols, &self.places)
            .map(|(column, place)| (column as usize, place as usize))
    }
}
