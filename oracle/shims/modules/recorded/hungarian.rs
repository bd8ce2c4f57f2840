//! The recorder: keeps a copy of the cost graph it is asked to match.

pub(crate) use crate::scaling::{CostGraph, Matching};
use std::cell::RefCell;

thread_local! {
    static GRAPH: RefCell<Option<CostGraph<'static>>> = const { RefCell::new(None) };
}

/// Keeps the graph and answers an empty matching, which nobody reads.
pub(crate) fn hungarian_match(graph: &CostGraph<'_>) -> Matching {
    GRAPH.set(Some(CostGraph {
        n: graph.n,
        col_ptr: graph.col_ptr.to_vec().into(),
        row_idx: graph.row_idx.to_vec().into(),
        cost: graph.cost.clone(),
    }));
    Matching {
        perm: Vec::new(),
        u: Vec::new(),
        v: Vec::new(),
        n_matched: 0,
    }
}

/// The graph recorded since the last call, if any.
pub(crate) fn take() -> Option<CostGraph<'static>> {
    GRAPH.take()
}
