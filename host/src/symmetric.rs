//! A symmetric matrix that owns its vectors.

use std::ops::Deref;

use crate::columns::unzipped;
use crate::lengths::symmetric_graph;
use crate::scaling::{self, Choice, Done};
use crate::{Columns, CostGraph, GeneralMatrix, Refusal, Workspace, graphs, sparse};

/// A symmetric matrix by columns, stored as its lower triangle. It was tested when it was made; what it holds can be
/// read as [`Columns`].
///
/// ```
/// use suontarvi::{Refusal, SymmetricMatrix};
///
/// let matrix = SymmetricMatrix::from_entries(2, [(0, 0, 4.0), (1, 0, 2.0)])?;
/// assert_eq!(matrix.onepass_factors(), [0.5, 1.0 / 2f64.sqrt()]);
/// # Ok::<(), Refusal>(())
/// ```
#[derive(Debug, Clone, PartialEq)]
pub struct SymmetricMatrix(Columns);

impl Deref for SymmetricMatrix {
    type Target = Columns;

    fn deref(&self) -> &Columns {
        &self.0
    }
}

/// What the chooser did.
#[derive(Debug, Clone, PartialEq)]
pub struct Scaled {
    /// Whether the factors apply.
    pub done: Done,
    /// One of each row and its column; natural logarithms of factors if MC64 was chosen.
    pub factors: Vec<f64>,
}

impl SymmetricMatrix {
    /// The matrix of these columns of its lower triangle. Refused as
    /// [`validate_symmetric`](sparse::validate_symmetric) does.
    ///
    /// ```
    /// use suontarvi::{Refusal, SymmetricMatrix};
    ///
    /// let refused = SymmetricMatrix::from_columns(2, vec![0, 0, 1], vec![0], vec![1.0]);
    /// assert_eq!(refused, Err(Refusal::UpperTriangle));
    /// ```
    pub fn from_columns(
        n: usize,
        col_ptr: Vec<u32>,
        row_idx: Vec<u32>,
        values: Vec<f64>,
    ) -> Result<SymmetricMatrix, Refusal> {
        let columns = Columns { col_ptr, row_idx, values };
        columns.validated(n, sparse::validate_symmetric).map(SymmetricMatrix)
    }

    /// The matrix of row, column and value of each entry of the lower triangle, from 0, in any order. Repeated places
    /// are summed. Refused as [`triplets_symmetric`](sparse::triplets_symmetric) does.
    pub fn from_entries(
        n: usize,
        entries: impl IntoIterator<Item = (u32, u32, f64)>,
    ) -> Result<SymmetricMatrix, Refusal> {
        let (rows, cols, vals) = unzipped(entries);
        SymmetricMatrix::from_triplets(n, &rows, &cols, &vals, &mut Workspace::new())
    }

    /// The same of three slices, with work that is lent again.
    pub fn from_triplets(
        n: usize,
        rows: &[u32],
        cols: &[u32],
        vals: &[f64],
        workspace: &mut Workspace,
    ) -> Result<SymmetricMatrix, Refusal> {
        let assemble = sparse::triplets_symmetric;
        Columns::assembled(n, [rows, cols], vals, assemble, workspace).map(SymmetricMatrix)
    }

    /// The cost graph from the natural logarithm of each value's magnitude ([`logs`](Columns::logs), or others). Zero
    /// values are dropped. Refused with 3 if the number of logs is wrong, then at each entry with 9 if its value is not
    /// finite, with 8 if its log is out of range.
    pub fn cost_graph(&self, logs: &[f64]) -> Result<CostGraph, Refusal> {
        self.cost_graph_with(logs, &mut Workspace::new())
    }

    /// The same with work that is lent again.
    ///
    /// ```
    /// use suontarvi::{Refusal, SymmetricMatrix, Workspace};
    ///
    /// let matrix = SymmetricMatrix::from_entries(2, [(1, 0, 1.0)])?;
    /// let graph = matrix.cost_graph_with(&matrix.logs(), &mut Workspace::new())?;
    /// // mirrored
    /// assert_eq!((graph.col_ptr(), graph.row_idx()), (&[0, 1, 2][..], &[1, 0][..]));
    /// # Ok::<(), Refusal>(())
    /// ```
    pub fn cost_graph_with(&self, logs: &[f64], workspace: &mut Workspace) -> Result<CostGraph, Refusal> {
        let room = symmetric_graph(self.values.len());
        CostGraph::built(self, room, workspace, |n, into| {
            let (m, [ptr, rows, work]) = (&self.0, into.numbers);
            let [cost, cmax] = into.doubles;
            graphs::symmetric_graph(n, &m.col_ptr, &m.row_idx, &m.values, logs, ptr, rows, cost, cmax, work)
        })
    }

    /// The cost graph from [whole-number logarithms](crate::whole_log), without `ln`: all costs are whole. Refused with
    /// 9 if a value is not finite.
    ///
    /// ```
    /// use suontarvi::{Refusal, SymmetricMatrix};
    ///
    /// let matrix = SymmetricMatrix::from_entries(2, [(0, 0, 1.0), (1, 0, 2.0)])?;
    /// assert_eq!(matrix.whole_cost_graph()?.cost(), [65536.0, 0.0, 0.0]);
    /// # Ok::<(), Refusal>(())
    /// ```
    pub fn whole_cost_graph(&self) -> Result<CostGraph, Refusal> {
        self.whole_cost_graph_with(&mut Workspace::new())
    }

    /// The same with work that is lent again.
    pub fn whole_cost_graph_with(&self, workspace: &mut Workspace) -> Result<CostGraph, Refusal> {
        let room = symmetric_graph(self.values.len());
        CostGraph::built(self, room, workspace, |n, into| {
            let (m, [ptr, rows, work]) = (&self.0, into.numbers);
            let [cost, cmax] = into.doubles;
            graphs::whole_symmetric_graph(n, &m.col_ptr, &m.row_idx, &m.values, ptr, rows, cost, cmax, work)
        })
    }

    /// Both triangles, every value with its bits.
    ///
    /// ```
    /// use suontarvi::{Refusal, SymmetricMatrix};
    ///
    /// let general = SymmetricMatrix::from_entries(2, [(1, 0, 3.0)])?.to_general();
    /// assert_eq!(general.entries().collect::<Vec<_>>(), [(1, 0, 3.0), (0, 1, 3.0)]);
    /// # Ok::<(), Refusal>(())
    /// ```
    pub fn to_general(&self) -> GeneralMatrix {
        let both = self.entries().flat_map(|(row, column, value)| {
            let (row, column) = (row as u32, column as u32);
            let mirrored = (row != column).then_some((column, row, value));
            [Some((row, column, value)), mirrored].into_iter().flatten()
        });
        let columns = Columns::sorted(self.n(), both).expect("the entries are of a tested matrix");
        GeneralMatrix::of(columns)
    }

    /// The iterated inf-norm factors: scaling by them from both sides brings each row's largest magnitude near to 1.
    ///
    /// ```
    /// use suontarvi::{Refusal, SymmetricMatrix};
    ///
    /// assert_eq!(SymmetricMatrix::from_entries(1, [(0, 0, 4.0)])?.infnorm_factors(), [0.5]);
    /// # Ok::<(), Refusal>(())
    /// ```
    pub fn infnorm_factors(&self) -> Vec<f64> {
        self.chosen(Choice::InfNorm, &[]).expect("a tested matrix has inf-norm factors").factors
    }

    /// The one-pass inf-norm factors: 1.0 over the root of the row's largest magnitude.
    pub fn onepass_factors(&self) -> Vec<f64> {
        let scaled = self.chosen(Choice::OnePassInfNorm, &[]);
        scaled.expect("a tested matrix has inf-norm factors").factors
    }

    /// The factors by a choice; log factors for MC64. `logs` is used by MC64 only and may otherwise be empty. MC64 is
    /// refused as [`cost_graph`](SymmetricMatrix::cost_graph) is, the external choice with 12; the others are never
    /// refused.
    ///
    /// ```
    /// use suontarvi::scaling::{Choice, Done};
    /// use suontarvi::{Refusal, SymmetricMatrix};
    ///
    /// let matrix = SymmetricMatrix::from_entries(1, [(0, 0, 4.0)])?;
    /// let scaled = matrix.chosen(Choice::Mc64Symmetric, &[3.0])?;
    /// assert_eq!((scaled.done, scaled.factors), (Done::Applied, vec![-1.5]));
    /// assert_eq!(matrix.chosen(Choice::External, &[]), Err(Refusal::ExternalChoice));
    /// # Ok::<(), Refusal>(())
    /// ```
    pub fn chosen(&self, choice: Choice, logs: &[f64]) -> Result<Scaled, Refusal> {
        if choice == Choice::Mc64Symmetric {
            return self.mc64(logs);
        }
        let n = self.n();
        let (mut factors, mut maxima) = (vec![0.0; n], vec![0.0; n]);
        let Columns { col_ptr, row_idx, values } = &self.0;
        let done = scaling::scaling(
            choice,
            n as u32,
            col_ptr,
            row_idx,
            values,
            &[],
            &[],
            &mut factors,
            &mut maxima,
            &mut [],
            &mut [],
            &mut [],
            &mut [],
            &mut [],
            &mut [],
            &mut [],
            &mut [],
            &mut [],
            &mut [],
            &mut [],
        )?;
        Ok(Scaled { done, factors })
    }

    /// Building, match and log factors, each of which leaves what the chooser would.
    fn mc64(&self, logs: &[f64]) -> Result<Scaled, Refusal> {
        let made = self.cost_graph(logs)?.matching().log_factors()?;
        let done = match made.unmatched {
            0 => Done::Applied,
            unmatched => Done::PartialSingular(unmatched),
        };
        Ok(Scaled { done, factors: made.logs })
    }
}
