//! Cost graphs and the match.

use crate::scaling::equilibrate_general::hungarian_match_instrumented;
use crate::scaling::CostGraph;

/// A cost graph in the original's own form, made once: a run copies nothing,
/// so that it can be timed.
pub struct Graph(pub(crate) CostGraph<'static>);

/// What the match leaves. The counts are in the order of SPECIFICATION 5.11: heap
/// slots set, searches, rows touched, phase 3 inner steps, ties scanned.
#[derive(Clone, Debug, PartialEq)]
pub struct Match {
    pub perm: Vec<usize>,
    pub u: Vec<f64>,
    pub v: Vec<f64>,
    pub n_matched: usize,
    pub counts: [u64; 5],
}

impl Graph {
    pub fn new(n: usize, col_ptr: Vec<usize>, row_idx: Vec<usize>, cost: Vec<f64>) -> Graph {
        Graph(CostGraph {
            n,
            col_ptr: col_ptr.into(),
            row_idx: row_idx.into(),
            cost,
        })
    }

    pub fn n(&self) -> usize {
        self.0.n
    }

    pub fn col_ptr(&self) -> &[usize] {
        &self.0.col_ptr
    }

    pub fn row_idx(&self) -> &[usize] {
        &self.0.row_idx
    }

    pub fn cost(&self) -> &[f64] {
        &self.0.cost
    }

    /// The original's instrumented match. It checks nothing of the graph.
    pub fn run(&self) -> Match {
        let (matching, counts) = hungarian_match_instrumented(&self.0);
        Match {
            perm: matching.perm,
            u: matching.u,
            v: matching.v,
            n_matched: matching.n_matched,
            counts: [
                counts.heap_init_slots,
                counts.augment_searches,
                counts.touched_total,
                counts.phase3_inner_iters,
                counts.main_loop_edge_scans,
            ],
        }
    }
}
