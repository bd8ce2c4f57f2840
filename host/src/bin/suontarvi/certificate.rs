//! What is proved of a match: its gap, as a factor of the product of the matched entries. The gap is about the stored
//! logarithms. Natural ones are rounded: their error is measured by integers and added, so that the factor holds for
//! the entries themselves. For a match that is not complete: that it is largest, and why.

use std::f64::consts::LN_2;

use suontarvi::{Columns, CostGraph, Gap, Matching, Refusal, Shortage};

use crate::exact_ln::{self, units};
use crate::json::Json;
use crate::rule::Rule;
use crate::shortage;

/// What is proved of a match by a rule.
pub struct Certificate {
    rule: Rule,
    proved: Proved,
}

enum Proved {
    /// How far a complete match can be from the largest product.
    Near(Near),
    /// No match has more pairs: which columns compete for which rows.
    Largest(Vec<Shortage>),
}

struct Near {
    gap: Gap,
    /// What the rounding of natural logarithms can add to it.
    rounding: f64,
    /// No product of entries is more than 1 and so much times that of the match; by whole-number logarithms, in them.
    excess: f64,
}

impl Certificate {
    /// Of a match of this graph, which is that of the matrix, of both triangles of a symmetric one.
    pub fn new(matrix: &Columns, graph: &CostGraph, found: &Matching, rule: Rule) -> Result<Certificate, Refusal> {
        if !found.is_complete() {
            return Ok(Certificate { rule, proved: Proved::Largest(graph.shortages(&found.perm)?) });
        }
        let gap = graph.best_gap(found)?;
        let (rounding, excess) = match rule {
            Rule::Whole => (0.0, excess(up(gap.bound() * up(LN_2) / 65536.0))),
            Rule::Natural | Rule::Flat => {
                let rounding = rounding(matrix, graph, found);
                (rounding, excess(up(gap.bound() + rounding)))
            }
        };
        Ok(Certificate { rule, proved: Proved::Near(Near { gap, rounding, excess }) })
    }

    /// Sentences, one to a line.
    pub fn lines(&self) -> Vec<String> {
        match &self.proved {
            Proved::Near(near) => vec![self.near(near)],
            Proved::Largest(shortages) => {
                let said = "not complete, so that no gap is proved; no match has more pairs, proved";
                [said.into()].into_iter().chain(shortage::sentences(shortages)).collect()
            }
        }
    }

    fn near(&self, Near { gap, rounding, excess }: &Near) -> String {
        // a whole-number logarithm is not the exact one: nothing is said of the entries themselves
        let (by, logs) = match self.rule {
            Rule::Whole => (" by whole-number logarithms", "them".into()),
            Rule::Natural | Rule::Flat => ("", natural(*rounding)),
        };
        let (Gap { steps, digits }, factor) = (gap, factor(*excess));
        let within = format!("within a factor of {factor} of the largest product{by}, proved");
        format!("{within}: a gap of {steps} steps of 2^-{digits} in {logs}")
    }

    pub fn json(&self) -> Json {
        match &self.proved {
            Proved::Near(Near { gap, rounding, excess }) => Json::object([
                ("steps", Json::text(&gap.steps.to_string())),
                ("digits", gap.digits.into()),
                ("gap", gap.bound().into()),
                ("rounding", (*rounding).into()),
                ("factor", Json::text(&factor(*excess))),
            ]),
            Proved::Largest(shortages) => Json::object([("shortages", shortage::json(shortages))]),
        }
    }
}

/// Two digits of what is added, rounded up: two digits may be short by a twentieth.
fn natural(rounding: f64) -> String {
    let added = rounding * 1.05;
    format!("the natural logarithms as they are stored, and {added:.1e} for their rounding, measured by integers")
}

/// How much more the exact logarithms of another matching can add up to than those that are stored: over the columns
/// the most that one is above what is stored, less that of the pair.
fn rounding(matrix: &Columns, graph: &CostGraph, found: &Matching) -> f64 {
    // of each column the most, and that of the pair
    let mut above = vec![(i128::MIN, 0); graph.n()];
    let kept = matrix.entries().filter(|(_, _, value)| *value != 0.0 && value.is_finite());
    for ((row, column, value), &cost) in kept.zip(graph.cost()) {
        let (Some(above), Some(&cmax)) = (above.get_mut(column), graph.cmax().get(column)) else { continue };
        let more = exact_ln::ln(value) - (units(cmax) - units(cost));
        above.0 = above.0.max(more);
        if found.perm.get(column).is_some_and(|&of| of as usize == row) {
            above.1 = more;
        }
    }
    // both have the error of a logarithm and are cut twice
    let error = 2 * (exact_ln::ERROR + 2);
    let added: i128 =
        above.into_iter().filter(|(most, _)| *most != i128::MIN).map(|(most, own)| most - own + error).sum();
    up(added as f64) / 2f64.powi(64)
}

/// The next double above a number that is 0 or more; 0 is exact.
fn up(x: f64) -> f64 {
    match x > 0.0 && x < f64::INFINITY {
        true => f64::from_bits(x.to_bits() + 1),
        false => x,
    }
}

/// At least e^x - 1, of an x of 0 or more, and near it: each sum, product and quotient is rounded up.
fn excess(x: f64) -> f64 {
    if x > 1.0 {
        let half = excess(x / 2.0);
        return up(up(half * half) + 2.0 * half);
    }
    // a term that is lost to zero is less than what the sum is rounded up by
    let (mut sum, mut term) = (x, x);
    for k in 2..=25 {
        term = up(up(term * x) / f64::from(k));
        sum = up(sum + term);
    }
    // all further terms together are below the last
    up(sum + term)
}

/// 1 and the excess, in decimal digits, rounded up at the second that is not 0.
fn factor(excess: f64) -> String {
    if excess == 0.0 {
        return "1".into();
    }
    let scaled = |digits: i32| up(excess * 10f64.powi(digits));
    // powers of ten up to 10^22 are exact
    let digits = (0..=22).find(|&digits| scaled(digits) >= 10.0).unwrap_or(22);
    let (steps, one) = (scaled(digits).ceil(), 10f64.powi(digits));
    if steps >= 1e15 {
        return format!("{:e}", up(up(1.0 + excess)));
    }
    let (steps, one) = (steps as u128, one as u128);
    let whole = 1 + steps / one;
    match digits {
        0 => whole.to_string(),
        _ => format!("{whole}.{:0width$}", steps % one, width = digits as usize),
    }
}

#[cfg(test)]
mod tests {
    use super::*;
    use suontarvi::GeneralMatrix;

    #[test]
    fn excesses_are_above_and_near() {
        assert_eq!(excess(0.0), 0.0);
        for x in [2f64.powi(-50), 1e-12, 3e-9, 1e-4, 0.01, 0.3, 1.0, 1.5, 7.0, 100.0, 700.0] {
            let near = x.exp_m1();
            let above = excess(x);
            assert!(above > near && above < near * (1.0 + 1e-11), "{x}: {above}, {near}");
        }
        assert_eq!(excess(1e4), f64::INFINITY);
    }

    /// What a logarithm that is stored is wrong by is in the rounding, and an exact one has next to none.
    #[test]
    fn rounding_is_measured() {
        let entries = [(0, 0, 3.0), (1, 0, 0.7), (0, 1, 1e-9), (1, 1, 1e200)];
        let matrix = GeneralMatrix::from_entries(2, entries).unwrap();
        let of = |logs: &[f64]| {
            let graph = matrix.cost_graph(logs).unwrap();
            rounding(&matrix, &graph, &graph.matching())
        };
        let logs = matrix.logs();
        let usual = of(&logs);
        assert!(usual > 0.0 && usual < 4.0 * 512.0 * f64::EPSILON, "{usual}");
        // an entry that is no pair may be larger than it seems, a pair smaller
        for (at, error) in [(1, -0.25), (3, 0.25)] {
            let mut wrong = logs.clone();
            wrong[at] += error;
            assert!((0.25..0.2500001).contains(&of(&wrong)), "{}", of(&wrong));
        }
        let ones = GeneralMatrix::from_entries(1, [(0, 0, 1.0)]).unwrap();
        let graph = ones.cost_graph(&[0.0]).unwrap();
        assert!(rounding(&ones, &graph, &graph.matching()) < 1e-16);
    }

    #[test]
    fn factors_are_rounded_up() {
        let cases = [
            (0.0, "1"),
            (4.61e-10, "1.00000000047"),
            (1e-10, "1.00000000011"),
            (8.9e-16, "1.00000000000000090"),
            (0.0995, "1.100"),
            (0.25, "1.26"),
            (1.51, "2.6"),
            (123.4, "125"),
            (f64::INFINITY, "inf"),
        ];
        for (excess, shown) in cases {
            assert_eq!(factor(excess), shown, "{excess}");
        }
    }
}
