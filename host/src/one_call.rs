//! Match, factors and the scaled matrix in one call.

use crate::{Exponents, GeneralMatrix, Matching, Refusal, SymmetricMatrix};

/// By which logarithms a general matrix is matched and scaled.
#[derive(Debug, Clone, Copy, PartialEq, Eq, Hash)]
pub enum GeneralRule {
    /// Natural logarithms, by the host's `ln` and `exp`: the matched entries become 1 and no other is above 1, except
    /// for rounding and for factors clamped to e^709 or e^-709.
    Natural,
    /// Base-two logarithms in whole units of 1/65,536: the factors are powers of two, and nothing is rounded.
    Whole,
}

/// The same of a symmetric matrix.
#[derive(Debug, Clone, Copy, PartialEq, Eq, Hash)]
pub enum SymmetricRule {
    /// Natural logarithms; unmatched rows and columns keep the factor 1.
    Natural,
    /// Natural logarithms; unmatched rows and columns are scaled after Duff and Pralet (2005).
    Flat,
    /// Base-two logarithms in whole units, of the matrix with both triangles; rows and columns have exponents each.
    Whole,
}

/// What rows and columns are multiplied by.
#[derive(Debug, Clone, PartialEq)]
pub enum Factors {
    /// A factor of each row and of each column; both are equal for a symmetric matrix.
    Reals {
        /// Of each row.
        rows: Vec<f64>,
        /// Of each column.
        columns: Vec<f64>,
    },
    /// Exponents of two.
    Powers(Exponents),
}

/// A match, the factors that belong to it, and the matrix that they make.
#[derive(Debug, Clone, PartialEq)]
pub struct Scaling {
    /// The row of each column, and the duals.
    pub matching: Matching,
    /// What rows and columns are multiplied by.
    pub factors: Factors,
    /// The scaled matrix; both triangles of a symmetric one.
    pub scaled: GeneralMatrix,
}

/// A product of three numbers that is infinite, zero or not normal only if the exact product is out of range, and that
/// is rounded as normal numbers are: the largest is multiplied by the least first.
///
/// ```
/// assert_eq!(suontarvi::product([1e-300, 1e-20, 1e300]), 1e-20);
/// ```
pub fn product(mut three: [f64; 3]) -> f64 {
    // 2^512
    const UP: f64 = f64::from_bits((1023 + 512) << 52);
    three.sort_by(|one, other| one.abs().total_cmp(&other.abs()));
    let [least, middle, largest] = three;
    let first = least * largest;
    match first.abs() < f64::MIN_POSITIVE {
        // below the normal numbers bits are lost
        true => least * UP * largest * middle / UP,
        false => first * middle,
    }
}

fn exponentials(logs: Vec<f64>) -> Vec<f64> {
    logs.into_iter().map(f64::exp).collect()
}

fn by_reals(
    mut matrix: GeneralMatrix,
    matching: Matching,
    rows: Vec<f64>,
    columns: Vec<f64>,
) -> Result<Scaling, Refusal> {
    let scaled = matrix.entries().map(|(row, column, value)| match (rows.get(row), columns.get(column)) {
        (Some(of_row), Some(of_column)) => product([*of_row, value, *of_column]),
        _ => value,
    });
    let scaled = scaled.collect();
    matrix.set_values(scaled)?;
    Ok(Scaling { matching, factors: Factors::Reals { rows, columns }, scaled: matrix })
}

fn by_powers(mut matrix: GeneralMatrix) -> Result<Scaling, Refusal> {
    let matching = matrix.whole_cost_graph()?.matching();
    let exponents = matching.exponents()?;
    matrix.scale_by(&exponents)?;
    Ok(Scaling { matching, factors: Factors::Powers(exponents), scaled: matrix })
}

/// A value that is not finite is refused before its graph would drop it.
fn finite(values: &[f64]) -> Result<(), Refusal> {
    match values.iter().all(|value| value.is_finite()) {
        true => Ok(()),
        false => Err(Refusal::ValueNotFinite),
    }
}

impl GeneralMatrix {
    /// Permutation, factors and the scaled matrix in one call. Refused with 9 if a value is not finite; by the rule
    /// [`Whole`](GeneralRule::Whole) with 46 if a value other than zero is not normal before or after.
    ///
    /// ```
    /// use suontarvi::{GeneralMatrix, GeneralRule, Refusal};
    ///
    /// let matrix = GeneralMatrix::from_entries(2, [(0, 0, 1.0), (1, 0, 8.0), (0, 1, 1024.0), (1, 1, 3.0)])?;
    /// let scaling = matrix.scaling(GeneralRule::Whole)?;
    /// assert_eq!(scaling.matching.perm, [1, 0]);
    /// assert_eq!(scaling.scaled.values(), [0.125, 1.0, 1.0, 0.0029296875]);
    /// let natural = matrix.scaling(GeneralRule::Natural)?;
    /// assert!(natural.scaled.values().iter().all(|value| value.abs() < 1.0 + 1e-12));
    /// # Ok::<(), Refusal>(())
    /// ```
    pub fn scaling(&self, rule: GeneralRule) -> Result<Scaling, Refusal> {
        if rule == GeneralRule::Whole {
            return by_powers(self.clone());
        }
        finite(self.values())?;
        let matching = self.cost_graph(&self.logs())?.matching();
        let logs = matching.unsymmetric_log_factors()?;
        by_reals(self.clone(), matching, exponentials(logs.rows), exponentials(logs.columns))
    }
}

impl SymmetricMatrix {
    /// Permutation, factors and the scaled matrix in one call. Refused with 9 if a value is not finite; by the rule
    /// [`Whole`](SymmetricRule::Whole) with 46 if a value other than zero is not normal before or after.
    ///
    /// ```
    /// use suontarvi::{Factors, Refusal, SymmetricMatrix, SymmetricRule};
    ///
    /// let matrix = SymmetricMatrix::from_entries(2, [(0, 0, 1e-3), (1, 0, 4.0)])?;
    /// let scaling = matrix.scaling(SymmetricRule::Natural)?;
    /// assert_eq!(scaling.matching.perm, [1, 0]);
    /// let Factors::Reals { rows, columns } = &scaling.factors else { panic!() };
    /// assert!(rows == columns && (rows[0] * 4.0 * rows[1] - 1.0).abs() < 1e-12);
    /// # Ok::<(), Refusal>(())
    /// ```
    pub fn scaling(&self, rule: SymmetricRule) -> Result<Scaling, Refusal> {
        if rule == SymmetricRule::Whole {
            return by_powers(self.to_general());
        }
        let logs = self.logs();
        let matching = self.cost_graph(&logs)?.matching();
        let made = match rule {
            SymmetricRule::Flat => matching.flat_log_factors(self, &logs)?,
            _ => matching.log_factors()?,
        };
        let factors = exponentials(made.logs);
        by_reals(self.to_general(), matching, factors.clone(), factors)
    }
}

#[cfg(test)]
mod tests {
    use super::product;

    #[test]
    fn a_product_is_not_lost_on_the_way() {
        let (large, small) = (709f64.exp(), (-709f64).exp());
        for value in [1e308, -1e308, 1e-308, 3.0] {
            let [one, other] = [product([large, value, small]), product([small, value, large])];
            assert!(one == other && (one / value - 1.0).abs() < 1e-12, "{value}: {one}");
        }
        assert_eq!(product([1e200, 0.0, 1e200]), 0.0);
        assert_eq!(product([1e200, -1e-200, 1e200]), -1e200);
        assert_eq!(product([1e200, 1e200, 1.0]), f64::INFINITY);
        // the least is below the normal numbers, and so is its product with the largest, but not the whole
        let (least, factor) = (f64::from_bits(1), 1.1 * 2f64.powi(30));
        assert_eq!(product([factor, least, factor]), factor * factor * 2f64.powi(-537) * 2f64.powi(-537));
    }
}
