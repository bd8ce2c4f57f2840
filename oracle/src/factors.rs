//! Factors from a match, and their logarithms before `exp`.

use crate::scaling::{mc64, ScalingInfo};
use crate::tickets;

/// A match with each column's largest logarithm: what the factors are made of.
/// The fields are open so that factors can be asked for any numbers.
#[derive(Clone, Debug, PartialEq)]
pub struct Matched {
    pub perm: Vec<usize>,
    pub u: Vec<f64>,
    pub v: Vec<f64>,
    pub cmax: Vec<f64>,
    pub n_matched: usize,
}

impl From<mc64::Mc64Cache> for Matched {
    fn from(cache: mc64::Mc64Cache) -> Matched {
        Matched {
            perm: cache.perm,
            u: cache.u,
            v: cache.v,
            cmax: cache.cmax,
            n_matched: cache.n_matched,
        }
    }
}

impl Matched {
    /// The symmetric factors.
    pub fn symmetric_factors(&self) -> (Vec<f64>, ScalingInfo) {
        mc64::scaling_from_cache(&self.unchanged())
    }

    /// The symmetric log factors; each is checked to give its factor.
    pub fn symmetric_logs(&self) -> (Vec<f64>, ScalingInfo) {
        let cache = self.changed();
        let ((held, info), seen) =
            tickets::with_tickets(|| tickets::mc64::scaling_from_cache(&cache));
        let logs = tickets::exchange(&held, &seen);
        let (factors, original_info) = self.symmetric_factors();
        check(&logs, &factors);
        assert_eq!(
            info, original_info,
            "the changed copy of mc64.rs reports otherwise"
        );
        (logs, info)
    }

    /// The factors of rows and of columns; `perm` and the count are not read.
    pub fn unsymmetric_factors(&self) -> (Vec<f64>, Vec<f64>) {
        mc64::unsymmetric_scaling(&self.unchanged())
    }

    /// The log factors of rows and of columns, each checked likewise.
    pub fn unsymmetric_logs(&self) -> (Vec<f64>, Vec<f64>) {
        let cache = self.changed();
        let ((rows, columns), seen) =
            tickets::with_tickets(|| tickets::mc64::unsymmetric_scaling(&cache));
        let rows = tickets::exchange(&rows, &seen);
        let columns = tickets::exchange(&columns, &seen);
        let (row_factors, column_factors) = self.unsymmetric_factors();
        check(&rows, &row_factors);
        check(&columns, &column_factors);
        (rows, columns)
    }

    fn unchanged(&self) -> mc64::Mc64Cache {
        mc64::Mc64Cache {
            perm: self.perm.clone(),
            u: self.u.clone(),
            v: self.v.clone(),
            cmax: self.cmax.clone(),
            n_matched: self.n_matched,
        }
    }

    fn changed(&self) -> tickets::mc64::Mc64Cache {
        tickets::mc64::Mc64Cache {
            perm: self.perm.clone(),
            u: self.u.clone(),
            v: self.v.clone(),
            cmax: self.cmax.clone(),
            n_matched: self.n_matched,
        }
    }
}

/// Stops unless each logarithm's `exp` is the unchanged file's factor, bit for
/// bit.
fn check(logs: &[f64], factors: &[f64]) {
    let same = |(log, factor): (&f64, &f64)| log.exp().to_bits() == factor.to_bits();
    assert!(
        logs.len() == factors.len() && logs.iter().zip(factors).all(same),
        "the changed copy of mc64.rs gives other factors"
    );
}
