//! Matrices of both kinds, in the original's own form: made once, so that a
//! timed call copies nothing. Only `cost_graph` copies, in the recorder.

use crate::factors::Matched;
use crate::graph::Graph;
use crate::recorded;
use crate::refusal::number;
use crate::scaling::equilibrate_general::{compute_infnorm, compute_onepass};
use crate::scaling::{compute_scaling, mc64, ScalingInfo, ScalingStrategy};
use crate::sparse::csc::CscMatrix;
use crate::sparse::general::GeneralCsc;

/// A symmetric matrix: the entries on and below the diagonal.
pub struct Symmetric(pub(crate) CscMatrix);

/// A general square matrix.
pub struct General(pub(crate) GeneralCsc<f64>);

/// What both kinds have under the same names.
macro_rules! columns {
    ($kind:ident, $original:ident) => {
        impl $kind {
            pub fn new(
                n: usize,
                col_ptr: Vec<usize>,
                row_idx: Vec<usize>,
                values: Vec<f64>,
            ) -> Self {
                $kind($original {
                    n,
                    col_ptr,
                    row_idx,
                    values,
                })
            }

            /// Repeated entries are summed. Refuses with 3, 5 or 6.
            pub fn from_triplets(
                n: usize,
                rows: &[usize],
                cols: &[usize],
                values: &[f64],
            ) -> Result<Self, u32> {
                $original::from_triplets(n, rows, cols, values)
                    .map($kind)
                    .map_err(number)
            }

            pub fn n(&self) -> usize {
                self.0.n
            }

            pub fn col_ptr(&self) -> &[usize] {
                &self.0.col_ptr
            }

            pub fn row_idx(&self) -> &[usize] {
                &self.0.row_idx
            }

            pub fn values(&self) -> &[f64] {
                &self.0.values
            }

            /// Pointers, rows and values.
            pub fn into_parts(self) -> (Vec<usize>, Vec<usize>, Vec<f64>) {
                (self.0.col_ptr, self.0.row_idx, self.0.values)
            }

            /// Refuses with 3 to 7, by the original's own order.
            pub fn validate(&self) -> Result<(), u32> {
                self.0.validate().map_err(number)
            }
        }
    };
}

columns!(Symmetric, CscMatrix);
columns!(General, GeneralCsc);

impl Symmetric {
    /// The cost graph and each column's largest logarithm.
    pub fn cost_graph(&self) -> (Graph, Vec<f64>) {
        let cache = recorded::mc64::compute_matching(&self.0);
        (
            recorded_graph(),
            cache.expect("the original builds every graph").cmax,
        )
    }

    pub fn matching(&self) -> Matched {
        mc64::compute_matching(&self.0)
            .expect("the original matches every graph")
            .into()
    }

    /// The iterated inf-norm factors.
    pub fn infnorm(&self) -> (Vec<f64>, ScalingInfo) {
        compute_infnorm(&self.0)
    }

    /// The one-pass inf-norm factors.
    pub fn onepass(&self) -> (Vec<f64>, ScalingInfo) {
        compute_onepass(&self.0)
    }

    /// The chooser. Refuses with 3 external factors of another length.
    pub fn scaling(&self, strategy: &ScalingStrategy) -> Result<(Vec<f64>, ScalingInfo), u32> {
        compute_scaling(&self.0, strategy).map_err(number)
    }
}

impl General {
    /// The cost graph and each column's largest logarithm.
    pub fn cost_graph(&self) -> (Graph, Vec<f64>) {
        silence();
        let cache = recorded::mc64::compute_matching_general(&self.0);
        (
            recorded_graph(),
            cache.expect("the original builds every graph").cmax,
        )
    }

    pub fn matching(&self) -> Matched {
        silence();
        mc64::compute_matching_general(&self.0)
            .expect("the original matches every graph")
            .into()
    }
}

/// The graph just recorded. For n = 0 the original builds none: the empty one.
fn recorded_graph() -> Graph {
    match recorded::hungarian::take() {
        Some(graph) => Graph(graph),
        None => Graph::new(0, vec![0], Vec::new(), Vec::new()),
    }
}

/// Keeps the original's log off standard output, whatever RLA_LOG says.
pub(crate) fn silence() {
    crate::logging::set_level(crate::logging::LogLevel::Off);
}
