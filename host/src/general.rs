//! A general matrix that owns its vectors.

use std::ops::Deref;

use crate::columns::unzipped;
use crate::{Columns, CostGraph, Exponents, Refusal, Workspace, exponents, graphs, sparse};

/// A general square matrix by columns. It was tested when it was made; what it holds can be read as [`Columns`].
///
/// ```
/// use suontarvi::{GeneralMatrix, Refusal};
///
/// let matrix = GeneralMatrix::from_entries(2, [(1, 1, 3.0), (0, 0, 2.0), (1, 0, -5.0)])?;
/// let graph = matrix.cost_graph(&matrix.logs())?;
/// let factors = graph.matching().unsymmetric_log_factors()?;
/// // no entry is above 1 once scaled
/// for (row, column, value) in matrix.entries() {
///     assert!((factors.rows[row] + factors.columns[column]).exp() * value.abs() < 1.0 + 1e-12);
/// }
/// # Ok::<(), Refusal>(())
/// ```
#[derive(Debug, Clone, PartialEq)]
pub struct GeneralMatrix(Columns);

impl Deref for GeneralMatrix {
    type Target = Columns;

    fn deref(&self) -> &Columns {
        &self.0
    }
}

impl GeneralMatrix {
    /// The matrix of these columns: pointers, rows and values. Refused as
    /// [`validate_general`](sparse::validate_general) does.
    ///
    /// ```
    /// use suontarvi::{GeneralMatrix, Refusal};
    ///
    /// let matrix = GeneralMatrix::from_columns(2, vec![0, 1, 2], vec![0, 0], vec![1.0, 2.0])?;
    /// assert_eq!(matrix.entries().collect::<Vec<_>>(), [(0, 0, 1.0), (0, 1, 2.0)]);
    /// # Ok::<(), Refusal>(())
    /// ```
    pub fn from_columns(
        n: usize,
        col_ptr: Vec<u32>,
        row_idx: Vec<u32>,
        values: Vec<f64>,
    ) -> Result<GeneralMatrix, Refusal> {
        let columns = Columns { col_ptr, row_idx, values };
        columns.validated(n, sparse::validate_general).map(GeneralMatrix)
    }

    /// The matrix of row, column and value of each entry, from 0, in any order. Repeated places are summed. Refused as
    /// [`triplets_general`](sparse::triplets_general) does.
    ///
    /// ```
    /// use suontarvi::{GeneralMatrix, Refusal};
    ///
    /// let matrix = GeneralMatrix::from_entries(2, [(1, 0, 3.0), (0, 0, 1.0), (1, 0, 2.0)])?;
    /// assert_eq!(matrix.entries().collect::<Vec<_>>(), [(0, 0, 1.0), (1, 0, 5.0)]);
    /// assert_eq!(GeneralMatrix::from_entries(2, [(2, 0, 3.0)]), Err(Refusal::IndexRange));
    /// # Ok::<(), Refusal>(())
    /// ```
    pub fn from_entries(
        n: usize,
        entries: impl IntoIterator<Item = (u32, u32, f64)>,
    ) -> Result<GeneralMatrix, Refusal> {
        let (rows, cols, vals) = unzipped(entries);
        GeneralMatrix::from_triplets(n, &rows, &cols, &vals, &mut Workspace::new())
    }

    /// The same of three slices, with work that is lent again.
    ///
    /// ```
    /// use suontarvi::{GeneralMatrix, Refusal, Workspace};
    ///
    /// let mut workspace = Workspace::new();
    /// let matrix = GeneralMatrix::from_triplets(1, &[0, 0], &[0, 0], &[1.0, 2.0], &mut workspace)?;
    /// assert_eq!(matrix.values(), [3.0]);
    /// # Ok::<(), Refusal>(())
    /// ```
    pub fn from_triplets(
        n: usize,
        rows: &[u32],
        cols: &[u32],
        vals: &[f64],
        workspace: &mut Workspace,
    ) -> Result<GeneralMatrix, Refusal> {
        let assemble = sparse::triplets_general;
        Columns::assembled(n, [rows, cols], vals, assemble, workspace).map(GeneralMatrix)
    }

    /// Other values at the same places.
    pub(crate) fn set_values(&mut self, values: Vec<f64>) -> Result<(), Refusal> {
        if values.len() != self.0.values.len() {
            return Err(Refusal::SliceLength);
        }
        self.0.values = values;
        Ok(())
    }

    pub(crate) fn of(columns: Columns) -> GeneralMatrix {
        GeneralMatrix(columns)
    }

    /// The cost graph from the natural logarithm of each value's magnitude ([`logs`](Columns::logs), or others). Zero
    /// values and those that are not finite are dropped. Refused with 3 if the number of logs is wrong, with 8 if one
    /// is out of range.
    ///
    /// ```
    /// use suontarvi::{GeneralMatrix, Refusal};
    ///
    /// let matrix = GeneralMatrix::from_entries(2, [(0, 0, 1.0), (1, 0, 0.0), (1, 1, 1.0)])?;
    /// assert_eq!(matrix.cost_graph(&matrix.logs())?.row_idx(), [0, 1]);
    /// # Ok::<(), Refusal>(())
    /// ```
    pub fn cost_graph(&self, logs: &[f64]) -> Result<CostGraph, Refusal> {
        self.cost_graph_with(logs, &mut Workspace::new())
    }

    /// The same with work that is lent again.
    ///
    /// ```
    /// use suontarvi::{GeneralMatrix, Refusal, Workspace};
    ///
    /// let matrix = GeneralMatrix::from_entries(1, [(0, 0, 2.0)])?;
    /// let mut workspace = Workspace::new();
    /// let graph = matrix.cost_graph_with(&matrix.logs(), &mut workspace)?;
    /// assert_eq!(graph.cmax(), [2f64.ln()]);
    /// assert_eq!(matrix.cost_graph_with(&[], &mut workspace), Err(Refusal::SliceLength));
    /// # Ok::<(), Refusal>(())
    /// ```
    pub fn cost_graph_with(&self, logs: &[f64], workspace: &mut Workspace) -> Result<CostGraph, Refusal> {
        let room = self.values.len();
        CostGraph::built(self, room, workspace, |n, into| {
            let (m, [ptr, rows, work]) = (&self.0, into.numbers);
            let [cost, cmax] = into.doubles;
            graphs::general_graph(n, &m.col_ptr, &m.row_idx, &m.values, logs, ptr, rows, cost, cmax, work)
        })
    }

    /// The cost graph from [whole-number logarithms](crate::whole_log), without `ln`: all costs are whole, so that a
    /// complete matching is of largest product in these logarithms, and can be checked. Refused with 9 if a value is
    /// not finite.
    ///
    /// ```
    /// use suontarvi::{GeneralMatrix, Refusal};
    ///
    /// let matrix = GeneralMatrix::from_entries(1, [(0, 0, 8.0)])?;
    /// assert_eq!(matrix.whole_cost_graph()?.cmax(), [3.0 * 65536.0]);
    /// # Ok::<(), Refusal>(())
    /// ```
    pub fn whole_cost_graph(&self) -> Result<CostGraph, Refusal> {
        self.whole_cost_graph_with(&mut Workspace::new())
    }

    /// The same with work that is lent again.
    ///
    /// ```
    /// use suontarvi::{GeneralMatrix, Refusal, Workspace};
    ///
    /// let matrix = GeneralMatrix::from_entries(1, [(0, 0, 8.0)])?;
    /// let mut workspace = Workspace::new();
    /// assert_eq!(matrix.whole_cost_graph_with(&mut workspace), matrix.whole_cost_graph());
    /// # Ok::<(), Refusal>(())
    /// ```
    pub fn whole_cost_graph_with(&self, workspace: &mut Workspace) -> Result<CostGraph, Refusal> {
        let room = self.values.len();
        CostGraph::built(self, room, workspace, |n, into| {
            let (m, [ptr, rows, work]) = (&self.0, into.numbers);
            let [cost, cmax] = into.doubles;
            graphs::whole_general_graph(n, &m.col_ptr, &m.row_idx, &m.values, ptr, rows, cost, cmax, work)
        })
    }

    /// Each value times 2 to the power of its row's exponent plus its column's, without rounding. Refused with 3, 43 or
    /// 46; the matrix then stays as it was.
    ///
    /// ```
    /// use suontarvi::{Exponents, GeneralMatrix, Refusal};
    ///
    /// let mut matrix = GeneralMatrix::from_entries(1, [(0, 0, 8.0)])?;
    /// matrix.scale_by(&Exponents { rows: vec![1], columns: vec![-3] })?;
    /// assert_eq!(matrix.values(), [2.0]);
    /// # Ok::<(), Refusal>(())
    /// ```
    pub fn scale_by(&mut self, by: &Exponents) -> Result<(), Refusal> {
        let n = self.n() as u32;
        let Columns { col_ptr, row_idx, values } = &mut self.0;
        exponents::apply_exponents(n, col_ptr, row_idx, &by.rows, &by.columns, values)
    }

    /// Pointers, rows and values.
    ///
    /// ```
    /// use suontarvi::{GeneralMatrix, Refusal};
    ///
    /// let matrix = GeneralMatrix::from_entries(1, [(0, 0, 8.0)])?;
    /// assert_eq!(matrix.into_columns(), (vec![0, 1], vec![0], vec![8.0]));
    /// # Ok::<(), Refusal>(())
    /// ```
    pub fn into_columns(self) -> (Vec<u32>, Vec<u32>, Vec<f64>) {
        (self.0.col_ptr, self.0.row_idx, self.0.values)
    }
}
