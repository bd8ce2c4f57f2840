//! What a call must answer: the refusal of SPECIFICATION 3.5 of a graph, or the original's match.

use super::plain::plain;
use crate::range::cost_fits;
use crate::sparse::{inputs::Matrix, wide};
use oracle::Graph;
use suontarvi::matching::NONE;

/// The numbers of an answer: the matched count and the seven counts.
pub const NUMBERS: usize = 8;

/// An accepted call's slices.
pub struct Expected {
    pub perm: Vec<u32>,
    pub u: Vec<f64>,
    pub v: Vec<f64>,
    pub answer: [u64; NUMBERS],
}

/// The first refusal in the order of SPECIFICATION 3.5, or the match. The limits are those of n and of the ties.
pub fn expected(graph: &Matrix, limits: (u32, usize), lengths_fit: bool) -> Result<Expected, u32> {
    tested(graph, limits, lengths_fit)?;
    Ok(original(graph))
}

/// The refusals alone.
pub fn tested(graph: &Matrix, limits: (u32, usize), lengths_fit: bool) -> Result<(), u32> {
    shape(graph, limits, lengths_fit)?;
    match graph.values.iter().all(|&cost| cost_fits(graph.n, cost)) {
        true => Ok(()),
        false => Err(8),
    }
}

/// Those that do not depend on the costs.
pub fn shape(graph: &Matrix, (rows, ties): (u32, usize), lengths_fit: bool) -> Result<(), u32> {
    if graph.n > rows {
        return Err(1);
    }
    if graph.rows.len() > ties {
        return Err(2);
    }
    if !lengths_fit {
        return Err(3);
    }
    contents(graph)
}

/// SPECIFICATION's refusals 4, 5 and 7 of a graph whose lengths fit.
fn contents(graph: &Matrix) -> Result<(), u32> {
    let pointers = &graph.col_ptr;
    let falls = pointers.windows(2).any(|pair| pair[1] < pair[0]);
    if pointers[0] != 0 || pointers[graph.n as usize] as usize != graph.rows.len() || falls {
        return Err(4);
    }
    for pair in pointers.windows(2) {
        let mut above = None;
        for &row in &graph.rows[pair[0] as usize..pair[1] as usize] {
            if row >= graph.n {
                return Err(5);
            }
            if above.is_some_and(|above| row <= above) {
                return Err(7);
            }
            above = Some(row);
        }
    }
    Ok(())
}

/// The original's match, and the two counts that it has not from the plain one, which must be the same match.
fn original(graph: &Matrix) -> Expected {
    let (col_ptr, row_idx) = (wide(&graph.col_ptr), wide(&graph.rows));
    let graph = Graph::new(graph.n as usize, col_ptr, row_idx, graph.values.clone());
    let (found, second) = (graph.run(), plain(&graph));
    let row = |&row: &usize| {
        if row == oracle::NONE {
            NONE
        } else {
            row as u32
        }
    };
    let bits = |duals: &[f64]| duals.iter().map(|x| x.to_bits()).collect::<Vec<u64>>();
    let [slots, searches, touched, inner, scanned] = found.counts;
    let [.., popped, largest_heap] = second.counts;
    assert_eq!(
        second.counts[..5],
        found.counts,
        "the plain match counts otherwise"
    );
    assert_eq!(second.perm, found.perm, "the plain match has other rows");
    assert_eq!(
        bits(&second.u),
        bits(&found.u),
        "the plain match has another u"
    );
    assert_eq!(
        bits(&second.v),
        bits(&found.v),
        "the plain match has another v"
    );
    assert_eq!(second.matched, found.n_matched);
    Expected {
        perm: found.perm.iter().map(row).collect(),
        u: found.u,
        v: found.v,
        answer: [
            found.n_matched as u64,
            slots,
            searches,
            touched,
            inner,
            scanned,
            popped,
            largest_heap,
        ],
    }
}
