//! Cost graphs of both kinds of matrices, for the match: a cost is its column's largest log minus its log. The calls
//! return the kept count: `graph_rows` and `cost` keep what they held past it. `graph_ptr` and `graph_rows` are the
//! column pointers and the rows of the graph. The matrices ([`GeneralMatrix`](crate::GeneralMatrix),
//! [`SymmetricMatrix`](crate::SymmetricMatrix)) have the same without lent slices.

use crate::{Refusal, kept};

/// Builds the cost graph of a symmetric matrix from its lower triangle. `logs` has the natural logarithm of each
/// value's magnitude. Zero values are dropped, the others mirrored off the diagonal.
///
/// Lengths: `col_ptr`, `graph_ptr` n+1; `values`, `logs` as `row_idx`; `graph_rows` and `cost` twice as long
/// ([`symmetric_graph`](crate::lengths::symmetric_graph)); `cmax` n; `work`
/// [`graph_work`](crate::lengths::graph_work). Refusals: those of a symmetric matrix; then at each entry as stored 9,
/// then 8.
///
/// ```
/// use suontarvi::{Refusal, graphs, lengths};
///
/// let (mut graph_ptr, mut graph_rows, mut cost, mut cmax) = ([0; 3], [0; 4], [0.0; 4], [0.0; 2]);
/// let mut work = [0; lengths::graph_work(2, 2)];
/// let kept = graphs::symmetric_graph(
///     2, &[0, 2, 2], &[0, 1], &[1.0, 2.0], &[0.0, 0.5],
///     &mut graph_ptr, &mut graph_rows, &mut cost, &mut cmax, &mut work,
/// )?;
/// assert_eq!((kept, graph_ptr, cmax), (3, [0, 2, 3], [0.5, 0.5]));
/// assert_eq!((&graph_rows[..kept], &cost[..kept]), (&[0, 1, 0][..], &[0.5, 0.0, 0.0][..]));
/// # Ok::<(), Refusal>(())
/// ```
#[allow(clippy::too_many_arguments)] // those of the C call
pub fn symmetric_graph(
    n: u32,
    col_ptr: &[u32],
    row_idx: &[u32],
    values: &[f64],
    logs: &[f64],
    graph_ptr: &mut [u32],
    graph_rows: &mut [u32],
    cost: &mut [f64],
    cmax: &mut [f64],
    work: &mut [u32],
) -> Result<usize, Refusal> {
    lent!(suontarvi_symmetric_graph(n; col_ptr, row_idx, values, logs;
        graph_ptr, graph_rows, cost, cmax, work))?;
    Ok(kept(graph_ptr))
}

/// Builds the cost graph of a general matrix. Zero values and those that are not finite are dropped.
///
/// Lengths: as [`symmetric_graph`], but `graph_rows` and `cost` as `row_idx`. Refusals: those of a general matrix; then
/// at each kept entry 8.
///
/// ```
/// use suontarvi::{Refusal, graphs, lengths};
///
/// let (mut graph_ptr, mut graph_rows, mut cost, mut cmax) = ([0; 2], [7], [7.0], [7.0]);
/// let mut work = [0; lengths::graph_work(1, 1)];
/// let kept = graphs::general_graph(
///     1, &[0, 1], &[0], &[0.0], &[f64::NEG_INFINITY],
///     &mut graph_ptr, &mut graph_rows, &mut cost, &mut cmax, &mut work,
/// )?;
/// // the zero is dropped, and its log does not count
/// assert_eq!((kept, graph_rows, cost, cmax), (0, [7], [7.0], [0.0]));
/// # Ok::<(), Refusal>(())
/// ```
#[allow(clippy::too_many_arguments)] // those of the C call
pub fn general_graph(
    n: u32,
    col_ptr: &[u32],
    row_idx: &[u32],
    values: &[f64],
    logs: &[f64],
    graph_ptr: &mut [u32],
    graph_rows: &mut [u32],
    cost: &mut [f64],
    cmax: &mut [f64],
    work: &mut [u32],
) -> Result<usize, Refusal> {
    lent!(suontarvi_general_graph(n; col_ptr, row_idx, values, logs;
        graph_ptr, graph_rows, cost, cmax, work))?;
    Ok(kept(graph_ptr))
}

/// Builds the cost graph of a symmetric matrix from [whole-number logarithms](crate::whole_log) of its values: all
/// costs are whole.
///
/// Lengths: as [`symmetric_graph`]. Refusals: those of a symmetric matrix; then 9.
///
/// ```
/// use suontarvi::{Refusal, graphs, lengths};
///
/// let (mut graph_ptr, mut graph_rows, mut cost, mut cmax) = ([0; 2], [0; 2], [0.0; 2], [0.0]);
/// let mut work = [0; lengths::graph_work(1, 1)];
/// let kept = graphs::whole_symmetric_graph(
///     1, &[0, 1], &[0], &[-2.0], &mut graph_ptr, &mut graph_rows, &mut cost, &mut cmax, &mut work,
/// )?;
/// assert_eq!((kept, cost[0], cmax), (1, 0.0, [65536.0]));
/// # Ok::<(), Refusal>(())
/// ```
#[allow(clippy::too_many_arguments)] // those of the C call
pub fn whole_symmetric_graph(
    n: u32,
    col_ptr: &[u32],
    row_idx: &[u32],
    values: &[f64],
    graph_ptr: &mut [u32],
    graph_rows: &mut [u32],
    cost: &mut [f64],
    cmax: &mut [f64],
    work: &mut [u32],
) -> Result<usize, Refusal> {
    lent!(suontarvi_whole_symmetric_graph(n; col_ptr, row_idx, values;
        graph_ptr, graph_rows, cost, cmax, work))?;
    Ok(kept(graph_ptr))
}

/// Builds the cost graph of a general matrix from [whole-number logarithms](crate::whole_log) of its values: all costs
/// are whole.
///
/// Lengths: as [`general_graph`]. Refusals: those of a general matrix; then 9.
///
/// ```
/// use suontarvi::{Refusal, graphs, lengths};
///
/// let (mut graph_ptr, mut graph_rows, mut cost, mut cmax) = ([0; 2], [0], [0.0], [0.0]);
/// let mut work = [0; lengths::graph_work(1, 1)];
/// let refused = graphs::whole_general_graph(
///     1, &[0, 1], &[0], &[f64::INFINITY], &mut graph_ptr, &mut graph_rows, &mut cost, &mut cmax, &mut work,
/// );
/// assert_eq!(refused, Err(Refusal::ValueNotFinite));
/// ```
#[allow(clippy::too_many_arguments)] // those of the C call
pub fn whole_general_graph(
    n: u32,
    col_ptr: &[u32],
    row_idx: &[u32],
    values: &[f64],
    graph_ptr: &mut [u32],
    graph_rows: &mut [u32],
    cost: &mut [f64],
    cmax: &mut [f64],
    work: &mut [u32],
) -> Result<usize, Refusal> {
    lent!(suontarvi_whole_general_graph(n; col_ptr, row_idx, values;
        graph_ptr, graph_rows, cost, cmax, work))?;
    Ok(kept(graph_ptr))
}
