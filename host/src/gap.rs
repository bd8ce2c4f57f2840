//! How far a matching can be from the least total.

use crate::{CostGraph, Matching, Refusal, matching};

/// The most digits that a step may have behind the point.
const MAX_DIGITS: u32 = 50;

/// The gap of a matching, by [`CostGraph::gap`]: its total is at most that of every complete matching of the graph plus
/// `steps` steps of 2^-`digits`, in exact numbers.
#[derive(Debug, Clone, Copy, PartialEq, Eq, Hash)]
pub struct Gap {
    /// How many steps.
    pub steps: u64,
    /// The digits of a step behind the point.
    pub digits: u32,
}

impl Gap {
    /// The gap as a double, rounded up: the steps times 2^-digits.
    ///
    /// ```
    /// use suontarvi::Gap;
    ///
    /// assert_eq!(Gap { steps: 3, digits: 2 }.bound(), 0.75);
    /// // 2^53 + 1 is no double
    /// assert_eq!(Gap { steps: (1 << 53) + 1, digits: 0 }.bound(), ((1u64 << 53) + 2) as f64);
    /// ```
    pub fn bound(&self) -> f64 {
        let nearest = self.steps as f64;
        // 2^64, which the steps can be rounded to, is above them all
        let above = match (nearest as u128) < u128::from(self.steps) {
            true => f64::from_bits(nearest.to_bits() + 1),
            false => nearest,
        };
        let (bits, digits) = (above.to_bits(), u64::from(self.digits));
        // the exponent of what is 0, or from 1 to 2^64
        match bits >> 52 {
            0 => 0.0,
            exponent if exponent > digits => f64::from_bits(bits - (digits << 52)),
            // below the normal numbers, in units of the least
            exponent => {
                let mantissa = bits & ((1 << 52) - 1) | 1 << 52;
                f64::from_bits(mantissa.div_ceil(1 << (digits + 1 - exponent).min(63)))
            }
        }
    }
}

impl CostGraph {
    /// How far a matching, whoever made it, can be from the least total, in steps of 2^-digits, for any costs and
    /// duals. No search is made. A matching that [`check`](CostGraph::check) also accepts has the gap 0.
    ///
    /// Refused with 5 for digits above 50; with 3 if its n differs; with 8 if a cost has more than 2^49 steps; then
    /// with 30; then with 31 if a dual is not finite or has more than 2^49 steps in size.
    /// [`best_gap`](CostGraph::best_gap) finds digits that fit.
    ///
    /// ```
    /// use suontarvi::{CostGraph, Refusal};
    ///
    /// let graph = CostGraph::from_entries(2, [(0, 0, 0.0), (1, 0, 3.0), (0, 1, 0.0), (1, 1, 5.0)])?;
    /// let mut matching = graph.matching();
    /// assert_eq!(graph.gap(&matching, 10)?.steps, 0);
    /// // 2 from the least total
    /// matching.perm = vec![0, 1];
    /// assert_eq!(graph.gap(&matching, 10)?.steps, 2 << 10);
    /// assert_eq!(graph.gap(&matching, 10)?.bound(), 2.0);
    /// assert_eq!(graph.gap(&matching, 51), Err(Refusal::IndexRange));
    /// # Ok::<(), Refusal>(())
    /// ```
    pub fn gap(&self, found: &Matching, digits: u32) -> Result<Gap, Refusal> {
        let (n, Matching { perm, u, v, .. }) = (self.n() as u32, found);
        let steps = matching::match_gap(n, digits, self.col_ptr(), self.row_idx(), self.cost(), perm, u, v)?;
        Ok(Gap { steps, digits })
    }

    /// The gap with the largest digits that is accepted, found by the largest magnitude of the costs and the duals.
    /// Refused with 3, 30 or 31 as [`gap`](CostGraph::gap) is: with 31 if a dual is not finite or beyond 2^49.
    ///
    /// ```
    /// use suontarvi::{GeneralMatrix, Refusal};
    ///
    /// let matrix = GeneralMatrix::from_entries(2, [(0, 0, 0.3), (1, 0, 7.0), (0, 1, 1e5), (1, 1, 0.9)])?;
    /// let graph = matrix.cost_graph(&matrix.logs())?;
    /// let gap = graph.best_gap(&graph.matching())?;
    /// // the largest cost, ln 1e5 - ln 0.9, is between 2^3 and 2^4
    /// assert_eq!(gap.digits, 49 - 4);
    /// assert!(gap.bound() < 1e-12);
    /// # Ok::<(), Refusal>(())
    /// ```
    pub fn best_gap(&self, found: &Matching) -> Result<Gap, Refusal> {
        let numbers = self.cost().iter().chain(&found.u).chain(&found.v);
        let largest = numbers.fold(0.0, |largest: f64, number| largest.max(number.abs()));
        let fits = |digits: &u32| largest <= 2f64.powi(49 - *digits as i32);
        // where none fits the call says why
        self.gap(found, (0..=MAX_DIGITS).rev().find(fits).unwrap_or(0))
    }
}

#[cfg(test)]
mod tests {
    use super::*;

    #[test]
    fn bounds_are_rounded_up() {
        let bound = |steps, digits| Gap { steps, digits }.bound();
        assert_eq!(bound(0, 50), 0.0);
        assert_eq!(bound(1, 50), 2f64.powi(-50));
        assert_eq!(bound(u64::MAX, 0), 2f64.powi(64));
        for steps in [(1 << 53) + 1, (1 << 53) + 3, (1 << 62) + 1, u64::MAX - 4096, u64::MAX - 2047] {
            let above = bound(steps, 0);
            let below = f64::from_bits(above.to_bits() - 1);
            assert!(above as u128 >= u128::from(steps) && (below as u128) < u128::from(steps), "{steps}");
            assert_eq!(bound(steps, 50), above * 2f64.powi(-50));
        }
    }

    #[test]
    fn bounds_below_the_normal_numbers() {
        let units = |steps, digits| Gap { steps, digits }.bound().to_bits();
        for digits in [1074, 1075, 1076, 1077, 1138, 5000, u32::MAX] {
            assert_eq!((units(0, digits), units(1, digits)), (0, 1), "{digits}");
        }
        assert_eq!(Gap { steps: 3, digits: 1023 }.bound(), 3.0 * 2f64.powi(-1000) * 2f64.powi(-23));
        assert_eq!([1074, 1075, 1076, 1077].map(|digits| units(5, digits)), [5, 3, 2, 1]);
        // 2^64 is 2^-1022, 2^-1023 and 2^-1074
        assert_eq!([1086, 1087, 1138].map(|digits| units(u64::MAX, digits)), [1 << 52, 1 << 51, 1]);
        assert_eq!([1075, 1076].map(|digits| units((1 << 53) - 1, digits)), [1 << 52, 1 << 51]);
        for digits in 1000..1100 {
            let back = |units| f64::from_bits(units) * 2f64.powi(600) * 2f64.powi(digits as i32 - 600);
            for steps in [1, 3, 5, (1 << 53) - 1] {
                let least = units(steps, digits);
                assert!(back(least - 1) < steps as f64 && steps as f64 <= back(least), "{steps} {digits}");
            }
        }
    }

    /// One digit more is refused, unless they are 50.
    #[test]
    fn the_digits_are_the_largest() {
        for cost in [0.0, 0.3, 0.5, 0.6, 1.0, 1.1, 700.0, 65536.0, 65536.5, 2e14] {
            let graph = CostGraph::from_entries(1, [(0, 0, cost)]).unwrap();
            let found = graph.matching();
            let best = graph.best_gap(&found).unwrap();
            let more = graph.gap(&found, best.digits + 1);
            let refusal = if best.digits == MAX_DIGITS { Refusal::IndexRange } else { Refusal::CostRange };
            assert_eq!((best.steps > 2, more), (false, Err(refusal)), "{cost}");
        }
    }

    #[test]
    fn duals_that_no_digits_fit() {
        let graph = CostGraph::from_entries(1, [(0, 0, 1.0)]).unwrap();
        let mut found = graph.matching();
        let limit = 2f64.powi(49);
        for (t, gap) in [(limit, Ok(Gap { steps: 0, digits: 0 })), (limit + 1.0, Err(Refusal::InfeasibleDuals))] {
            (found.u[0], found.v[0]) = (t, 1.0 - t);
            assert_eq!((graph.check(&found), graph.best_gap(&found)), (Ok(()), gap));
        }
        for dual in [f64::NAN, f64::INFINITY, -1e300] {
            found.u[0] = dual;
            assert_eq!(graph.best_gap(&found), Err(Refusal::InfeasibleDuals));
        }
        found.u.push(0.0);
        assert_eq!(graph.best_gap(&found), Err(Refusal::SliceLength));
    }
}
