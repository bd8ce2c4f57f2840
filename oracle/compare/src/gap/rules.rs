//! The rules of the gap, in their order, by exact integers; and the least total, by trying every complete matching.

use super::inputs::Input;
use super::units::Units;
use crate::check::rules::{columns, is_complete};
use crate::matching::expected::tested;
use crate::matching::native::LIMITS;
use crate::sparse::inputs::Matrix;

const MAX_DIGITS: u32 = 50;
const MAX_STEPS: f64 = (1u64 << 49) as f64;

/// The gap, or the first refusal.
pub fn outcome(input: &Input) -> Result<u64, u32> {
    let Input {
        graph,
        claim,
        digits,
        gap,
    } = input;
    if *digits > MAX_DIGITS {
        return Err(5);
    }
    let lengths_fit = graph.lengths_fit() && claim.lengths_fit(graph.n as usize) && gap.len() == 1;
    tested(graph, LIMITS, lengths_fit)?;
    if !graph.values.iter().all(|&cost| fits(cost, *digits)) {
        return Err(8);
    }
    if !is_complete(graph, &claim.perm) {
        return Err(30);
    }
    if !claim.u.iter().chain(&claim.v).all(|&x| fits(x, *digits)) {
        return Err(31);
    }
    Ok(steps(input))
}

/// A number in steps. A power of two times a double rounds nothing here: it makes it larger, and not too large.
fn in_steps(x: f64, digits: u32) -> f64 {
    x * (1u64 << digits) as f64
}

pub fn fits(x: f64, digits: u32) -> bool {
    x.is_finite() && in_steps(x, digits).abs() <= MAX_STEPS
}

fn steps(input: &Input) -> u64 {
    let Input { graph, claim, .. } = input;
    let down = |x: f64| in_steps(x, input.digits).floor() as i128;
    let up = |x: f64| in_steps(x, input.digits).ceil() as i128;
    let mut gap = 0;
    for (column, entries) in columns(graph).enumerate() {
        let (mut excess, mut lack) = (0, 0);
        for (row, place) in entries {
            let (cost, u, v) = (graph.values[place], claim.u[row as usize], claim.v[column]);
            excess = excess.max(up(u) + up(v) - down(cost));
            if claim.perm[column] == row {
                lack = lack.max(up(cost) - down(u) - down(v));
            }
        }
        gap += excess + lack;
    }
    gap.try_into().expect("a gap has 64 digits")
}

/// The total of the pairs, of a complete matching.
pub fn total(graph: &Matrix, perm: &[u32]) -> Units {
    let mut total = Units::ZERO;
    for (column, entries) in columns(graph).enumerate() {
        let pair = entries.iter().find(|(row, _)| *row == perm[column]);
        let &(_, place) = pair.expect("the pairs are entries");
        total = total.plus(Units::of(graph.values[place]));
    }
    total
}

/// The least total of all complete matchings, each of which is tried.
pub fn least(graph: &Matrix) -> Option<Units> {
    let columns: Vec<Vec<(u32, usize)>> = columns(graph).collect();
    let mut least = None;
    tried(graph, &columns, 0, Units::ZERO, &mut least);
    least
}

/// Every way to give the columns rows that are not yet taken.
fn tried(
    graph: &Matrix,
    columns: &[Vec<(u32, usize)>],
    taken: u64,
    total: Units,
    least: &mut Option<Units>,
) {
    let Some((first, rest)) = columns.split_first() else {
        if least.is_none_or(|least| total.at_most(&least)) {
            *least = Some(total);
        }
        return;
    };
    for &(row, place) in first {
        if taken >> row & 1 == 0 {
            let total = total.plus(Units::of(graph.values[place]));
            tried(graph, rest, taken | 1 << row, total, least);
        }
    }
}
