//! A matching that owns its vectors, and what is made from it.

use crate::columns::number;
use crate::factors::Rule;
use crate::matching::Counts;
use crate::{NONE, Refusal, SymmetricMatrix, exponents, factors, lengths, sheets};

/// A matching with its duals, found by [`CostGraph::matching`](crate::CostGraph::matching), read from a sheet file, or
/// made by others: the fields are open.
#[derive(Debug, Clone, PartialEq)]
pub struct Matching {
    /// The number of pairs.
    pub matched: u32,
    /// The row of each column, or [`NONE`].
    pub perm: Vec<u32>,
    /// The dual of each row.
    pub u: Vec<f64>,
    /// The dual of each column.
    pub v: Vec<f64>,
    /// The largest log of each column of the matrix; 0.0 if the graph was not of a matrix.
    pub cmax: Vec<f64>,
    /// What the match took; none if it was read from a sheet, which has no counts.
    pub counts: Option<Counts>,
}

/// Natural logarithms of factors of rows and columns.
#[derive(Debug, Clone, PartialEq)]
pub struct LogFactors {
    /// Of each row.
    pub rows: Vec<f64>,
    /// Of each column.
    pub columns: Vec<f64>,
}

/// Natural logarithms of the factors of a symmetric matrix.
#[derive(Debug, Clone, PartialEq)]
pub struct SymmetricLogFactors {
    /// One of each row and its column.
    pub logs: Vec<f64>,
    /// The number of unmatched columns.
    pub unmatched: u32,
}

/// Exponents of two of rows and columns.
#[derive(Debug, Clone, PartialEq, Eq)]
pub struct Exponents {
    /// Of each row.
    pub rows: Vec<i32>,
    /// Of each column.
    pub columns: Vec<i32>,
}

impl Matching {
    pub(crate) fn room(n: usize) -> Matching {
        Matching { matched: 0, perm: vec![0; n], u: vec![0.0; n], v: vec![0.0; n], cmax: vec![0.0; n], counts: None }
    }

    /// The number of columns, and of rows.
    pub fn n(&self) -> usize {
        self.perm.len()
    }

    /// Whether every column has a row.
    ///
    /// ```
    /// use suontarvi::{CostGraph, Refusal};
    ///
    /// assert!(CostGraph::from_entries(1, [(0, 0, 4.0)])?.matching().is_complete());
    /// assert!(!CostGraph::from_entries(1, [])?.matching().is_complete());
    /// # Ok::<(), Refusal>(())
    /// ```
    pub fn is_complete(&self) -> bool {
        self.matched as usize == self.n()
    }

    /// Row and column of each pair, by rising column.
    ///
    /// ```
    /// use suontarvi::{CostGraph, Refusal};
    ///
    /// let matching = CostGraph::from_entries(2, [(0, 1, 4.0)])?.matching();
    /// assert_eq!(matching.pairs().collect::<Vec<_>>(), [(0, 1)]);
    /// # Ok::<(), Refusal>(())
    /// ```
    pub fn pairs(&self) -> impl Iterator<Item = (usize, usize)> {
        let columns = self.perm.iter().enumerate();
        columns.filter(|(_, row)| **row != NONE).map(|(column, row)| (*row as usize, column))
    }

    /// The log factors of a symmetric matrix from the match of its cost graph; unmatched rows and columns get 0.
    /// Refused with 1, 3 or 10.
    ///
    /// ```
    /// use suontarvi::{Refusal, SymmetricMatrix};
    ///
    /// let matrix = SymmetricMatrix::from_entries(2, [(1, 0, 10.0)])?;
    /// let matching = matrix.cost_graph(&matrix.logs())?.matching();
    /// let factors: Vec<f64> = matching.log_factors()?.logs.into_iter().map(f64::exp).collect();
    /// assert!((factors[1] * 10.0 * factors[0] - 1.0).abs() < 1e-12);
    /// # Ok::<(), Refusal>(())
    /// ```
    pub fn log_factors(&self) -> Result<SymmetricLogFactors, Refusal> {
        self.by_rule(Rule::Identity, [&[], &[]], [&[], &[]])
    }

    /// The same by Duff and Pralet's rule (2005): unmatched rows and columns are scaled so that their largest entry to
    /// a matched one becomes 1. `logs` are those of the matrix whose cost graph was matched. Refused as the
    /// [call](factors::log_factors_by_rule).
    ///
    /// ```
    /// use suontarvi::{Refusal, SymmetricMatrix};
    ///
    /// // rows 1 and 2 have nothing but their tie to row 0
    /// let matrix = SymmetricMatrix::from_entries(3, [(0, 0, 4.0), (1, 0, 2.0), (2, 0, 8.0)])?;
    /// let matching = matrix.cost_graph(&matrix.logs())?.matching();
    /// let flat = matching.flat_log_factors(&matrix, &matrix.logs())?;
    /// assert_eq!(flat.unmatched, 1);
    /// assert!(flat.logs[1] != 0.0);
    /// # Ok::<(), Refusal>(())
    /// ```
    pub fn flat_log_factors(&self, matrix: &SymmetricMatrix, logs: &[f64]) -> Result<SymmetricLogFactors, Refusal> {
        let (col_ptr, row_idx, values) = (matrix.col_ptr(), matrix.row_idx(), matrix.values());
        self.by_rule(Rule::Flat, [col_ptr, row_idx], [values, logs])
    }

    fn by_rule(
        &self,
        rule: Rule,
        [col_ptr, row_idx]: [&[u32]; 2],
        [values, logs]: [&[f64]; 2],
    ) -> Result<SymmetricLogFactors, Refusal> {
        let n = self.n();
        let (mut made, mut work) = (vec![0.0; n], vec![0; n]);
        let Matching { matched, perm, u, v, cmax, .. } = self;
        let unmatched = factors::log_factors_by_rule(
            rule,
            number(n)?,
            *matched,
            perm,
            u,
            v,
            cmax,
            col_ptr,
            row_idx,
            values,
            logs,
            &mut made,
            &mut work,
        )?;
        Ok(SymmetricLogFactors { logs: made, unmatched })
    }

    /// The log factors of a general matrix from the match of its cost graph. Refused with 1 or 3.
    ///
    /// ```
    /// use suontarvi::{GeneralMatrix, Refusal};
    ///
    /// let matrix = GeneralMatrix::from_entries(1, [(0, 0, 10.0)])?;
    /// let factors = matrix.cost_graph(&matrix.logs())?.matching().unsymmetric_log_factors()?;
    /// assert_eq!((factors.rows[0], factors.columns[0]), (0.0, -10f64.ln()));
    /// # Ok::<(), Refusal>(())
    /// ```
    pub fn unsymmetric_log_factors(&self) -> Result<LogFactors, Refusal> {
        let n = self.n();
        let (mut rows, mut columns) = (vec![0.0; n], vec![0.0; n]);
        let Matching { u, v, cmax, .. } = self;
        factors::unsymmetric_factors(number(n)?, u, v, cmax, &mut rows, &mut columns)?;
        Ok(LogFactors { rows, columns })
    }

    /// Exponents of two from the match of a graph of [whole-number logarithms](crate::whole_log). Those of a complete
    /// match bring every magnitude below 2 and the matched ones above 1/4; a symmetric matrix is scaled as
    /// [`SymmetricMatrix::to_general`]. Refused with 1, 3 or 43; a complete match that was found here is never refused.
    ///
    /// ```
    /// use suontarvi::{GeneralMatrix, Refusal};
    ///
    /// let matrix = GeneralMatrix::from_entries(1, [(0, 0, 8.0)])?;
    /// let exponents = matrix.whole_cost_graph()?.matching().exponents()?;
    /// assert_eq!((exponents.rows[0], exponents.columns[0]), (0, -3));
    /// # Ok::<(), Refusal>(())
    /// ```
    pub fn exponents(&self) -> Result<Exponents, Refusal> {
        let n = self.n();
        let (mut rows, mut columns) = (vec![0; n], vec![0; n]);
        let Matching { u, v, cmax, .. } = self;
        exponents::exponents(number(n)?, u, v, cmax, &mut rows, &mut columns)?;
        Ok(Exponents { rows, columns })
    }

    /// The sheet file of this match. Equal matches have equal bytes. Refused with 1, 3 or 10.
    ///
    /// ```
    /// use suontarvi::{CostGraph, Matching, Refusal};
    ///
    /// let matching = CostGraph::from_entries(1, [(0, 0, 4.0)])?.matching();
    /// let read = Matching::from_sheet(&matching.to_sheet()?)?;
    /// assert_eq!((read.matched, read.perm, read.u), (1, vec![0], vec![4.0]));
    /// # Ok::<(), Refusal>(())
    /// ```
    pub fn to_sheet(&self) -> Result<Vec<u8>, Refusal> {
        let n = number(self.n())?;
        let mut sheet = vec![0; lengths::sheet(self.n())];
        let Matching { matched, perm, u, v, cmax, .. } = self;
        let used = sheets::write_sheet(n, *matched, perm, u, v, cmax, &mut sheet)?;
        sheet.truncate(used);
        Ok(sheet)
    }

    /// The match of a sheet file whose records come in any order. Refused with 40, 41 or 42.
    ///
    /// ```
    /// use suontarvi::{Matching, NONE, Refusal};
    ///
    /// // two columns; column 1 first, then column 0, with the rows 0 and 1
    /// let read = Matching::from_sheet(&[2, 0, 1, 0, 1, 0, 0, 0, 0, 1, 1, 0])?;
    /// assert_eq!((read.matched, read.perm), (2, vec![1, 0]));
    /// // without a record
    /// assert_eq!(Matching::from_sheet(&[1, 0])?.perm, [NONE]);
    /// # Ok::<(), Refusal>(())
    /// ```
    pub fn from_sheet(sheet: &[u8]) -> Result<Matching, Refusal> {
        Matching::read(sheet, sheets::read_sheet)
    }

    /// The match of a sheet file that [`to_sheet`](Matching::to_sheet) could have written. Any other is refused, with
    /// 40, 41, 45 or 44.
    ///
    /// ```
    /// use suontarvi::{Matching, Refusal};
    ///
    /// assert_eq!(Matching::from_canonical_sheet(&[0, 0, 0]), Err(Refusal::SheetCut));
    /// ```
    pub fn from_canonical_sheet(sheet: &[u8]) -> Result<Matching, Refusal> {
        Matching::read(sheet, sheets::read_canonical_sheet)
    }

    fn read(sheet: &[u8], call: sheets::Reader) -> Result<Matching, Refusal> {
        // a file without an n is refused before any length is tested
        let mut read = Matching::room(sheets::columns(sheet).unwrap_or(0));
        let Matching { perm, u, v, cmax, .. } = &mut read;
        read.matched = call(sheet, perm, u, v, cmax)?;
        Ok(read)
    }
}
