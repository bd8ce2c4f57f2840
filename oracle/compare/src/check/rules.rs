//! The rules of the check, in their order, by exact integers.

use super::claims::Claim;
use crate::matching::expected::tested;
use crate::matching::native::LIMITS;
use crate::sparse::inputs::Matrix;

/// The largest size of a dual.
const DUAL_LIMIT: u128 = 1 << 50;

/// 0, or the first refusal.
pub fn number(graph: &Matrix, claim: &Claim) -> u32 {
    let lengths_fit = graph.lengths_fit() && claim.lengths_fit(graph.n as usize);
    if let Err(number) = tested(graph, LIMITS, lengths_fit) {
        return number;
    }
    if !whole_costs(graph) {
        return 8;
    }
    if !is_complete(graph, &claim.perm) {
        return 30;
    }
    let Some(slacks) = slacks(graph, claim) else {
        return 31;
    };
    match slacks.iter().all(|&(pair, slack)| !pair || slack == 0) {
        true => 0,
        false => 32,
    }
}

pub fn whole_costs(graph: &Matrix) -> bool {
    graph.values.iter().all(|&cost| whole(cost).is_some())
}

/// The whole number that x is; a number beyond i128 becomes its end, which no rule accepts.
fn whole(x: f64) -> Option<i128> {
    (x.is_finite() && x.fract() == 0.0).then_some(x as i128)
}

/// The entries of each column: row and place.
pub fn columns(graph: &Matrix) -> impl Iterator<Item = Vec<(u32, usize)>> + '_ {
    graph.col_ptr.windows(2).map(|pair| {
        let stretch = pair[0] as usize..pair[1] as usize;
        stretch.map(|place| (graph.rows[place], place)).collect()
    })
}

/// No gap, no repeat, no pair without an entry.
pub fn is_complete(graph: &Matrix, perm: &[u32]) -> bool {
    let mut rows = perm.to_vec();
    rows.sort_unstable();
    rows.iter().copied().eq(0..graph.n)
        && columns(graph)
            .zip(perm)
            .all(|(column, &row)| column.iter().any(|&(other, _)| other == row))
}

/// Of each entry whether it is a pair, and the cost less the two duals; none if a dual is not whole or too large, or a
/// sum above a cost.
fn slacks(graph: &Matrix, claim: &Claim) -> Option<Vec<(bool, i128)>> {
    let dual = |&x: &f64| whole(x).filter(|size| size.unsigned_abs() <= DUAL_LIMIT);
    let u: Vec<i128> = claim.u.iter().map(dual).collect::<Option<_>>()?;
    let v: Vec<i128> = claim.v.iter().map(dual).collect::<Option<_>>()?;
    let mut slacks = Vec::new();
    for (column, entries) in columns(graph).enumerate() {
        for (row, place) in entries {
            let slack = whole(graph.values[place])? - u[row as usize] - v[column];
            slacks.push((claim.perm[column] == row, slack));
        }
    }
    slacks
        .iter()
        .all(|&(_, slack)| slack >= 0)
        .then_some(slacks)
}
