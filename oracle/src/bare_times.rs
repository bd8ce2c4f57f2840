//! Graph building and factors without `ln` and `exp`, for times beside the
//! port, which is lent logs and gives log factors. Nothing here copies its input.

use crate::bare::mc64;
use crate::factors::Matched;
use crate::matrix::{General, Symmetric};
use crate::scaling::ScalingInfo;

/// Builds the symmetric cost graph and drops it; each column's largest log.
/// The matrix holds logs, of either sign, where it would hold values.
pub fn symmetric_graph(logs: &Symmetric) -> Vec<f64> {
    let cache = mc64::compute_matching(&logs.0);
    cache.expect("the original builds every graph").cmax
}

/// The same of the general one.
pub fn general_graph(logs: &General) -> Vec<f64> {
    crate::matrix::silence();
    let cache = mc64::compute_matching_general(&logs.0);
    cache.expect("the original builds every graph").cmax
}

/// A match in the original's own form, made once.
pub struct Cache(mc64::Mc64Cache);

impl From<Matched> for Cache {
    fn from(matched: Matched) -> Cache {
        Cache(mc64::Mc64Cache {
            perm: matched.perm,
            u: matched.u,
            v: matched.v,
            cmax: matched.cmax,
            n_matched: matched.n_matched,
        })
    }
}

impl Cache {
    /// The symmetric log factors, except that 0 is rewritten to 1.
    pub fn symmetric(&self) -> (Vec<f64>, ScalingInfo) {
        mc64::scaling_from_cache(&self.0)
    }

    /// Those of rows and of columns, except for the same.
    pub fn unsymmetric(&self) -> (Vec<f64>, Vec<f64>) {
        mc64::unsymmetric_scaling(&self.0)
    }
}
