//! What a call must answer: a refusal, or the slices as it leaves them.

use super::inputs::{Call, CHOICES};
use crate::graphs::expected::{expected as expected_graph, natural};
use crate::infnorm::original;
use crate::sparse::{limits, wide, Kind};
use oracle::{Graph, Matched, ScalingInfo, ScalingStrategy};
use suontarvi::matching::NONE;
use suontarvi::scaling::{Choice, Done};

/// The first refusal in the order of SPECIFICATION 3.5, or the call as it is left and what was done.
pub fn expected(call: &Call) -> Result<(Call, Done), u32> {
    if call.is(Choice::External) {
        return Err(external(call));
    }
    match Kind::Symmetric.fault(&call.building.matrix, call.lengths_fit()) {
        0 => {}
        fault => return Err(fault),
    }
    let mut left = call.clone();
    let (factors, info) = match strategy(call).ok_or(5u32)? {
        ScalingStrategy::Mc64Symmetric => mc64(&mut left)?,
        strategy => original(&call.building.matrix)
            .scaling(&strategy)
            .expect("the original takes every matrix"),
    };
    if call.is(Choice::InfNorm) {
        left.maxima.fill(0.0);
    }
    left.factors = factors;
    let (number, unmatched, done) = told(info);
    left.info = vec![number, unmatched];
    Ok((left, done))
}

/// The external choice is refused, with 1 or 2 before 12: no slice is read, only the entry count.
fn external(call: &Call) -> u32 {
    let matrix = &call.building.matrix;
    match limits(Kind::Symmetric, matrix.n, matrix.rows.len()) {
        0 => 12,
        limit => limit,
    }
}

/// The original's choice; none for a number that is no choice, and for the external one, which only the original takes.
fn strategy(call: &Call) -> Option<ScalingStrategy> {
    let choice = CHOICES.into_iter().find(|&choice| call.is(choice))?;
    match choice {
        Choice::InfNorm => Some(ScalingStrategy::InfNorm),
        Choice::OnePassInfNorm => Some(ScalingStrategy::OnePassInfNorm),
        Choice::Mc64Symmetric => Some(ScalingStrategy::Mc64Symmetric),
        Choice::Identity => Some(ScalingStrategy::Identity),
        Choice::External => None,
    }
}

/// The numbers of SPECIFICATION 10.2 for what was done.
fn told(info: ScalingInfo) -> (u32, u32, Done) {
    match info {
        ScalingInfo::Applied => (0, 0, Done::Applied),
        ScalingInfo::PartialSingular { n_unmatched } => {
            let unmatched = n_unmatched as u32;
            (1, unmatched, Done::PartialSingular(unmatched))
        }
        ScalingInfo::NotApplied => (2, 0, Done::NotApplied),
    }
}

/// Graph, match and log factors, one after the other, into the slices of the choice; SPECIFICATION's refusals 9 and 8.
fn mc64(left: &mut Call) -> Result<(Vec<f64>, ScalingInfo), u32> {
    let building = &mut left.building;
    let graph = expected_graph(Kind::Symmetric, building)?;
    let (pointers, rows) = (wide(&graph.pointers), wide(&graph.rows));
    let found = Graph::new(graph.cmax.len(), pointers, rows, graph.cost.clone()).run();
    let row = |&row: &usize| match row {
        oracle::NONE => NONE,
        row => row as u32,
    };
    left.perm = found.perm.iter().map(row).collect();
    (left.u, left.v) = (found.u.clone(), found.v.clone());
    let matched = Matched {
        perm: found.perm,
        u: found.u,
        v: found.v,
        cmax: graph.cmax.clone(),
        n_matched: found.n_matched,
    };
    let scaled = matched.symmetric_logs();
    if natural(building) {
        let whole = original(&building.matrix).scaling(&ScalingStrategy::Mc64Symmetric);
        let parts = matched.symmetric_factors();
        assert_eq!(whole, Ok(parts), "the choice is its three parts");
    }
    let kept = graph.rows.len();
    building.graph_ptr = graph.pointers;
    building.graph_rows[..kept].copy_from_slice(&graph.rows);
    building.cost[..kept].copy_from_slice(&graph.cost);
    building.cmax = graph.cmax;
    building.work.fill(0);
    left.match_work.fill(0);
    left.distances.fill(0.0);
    left.factor_work.fill(0);
    Ok(scaled)
}
