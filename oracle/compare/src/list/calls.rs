//! The case of each call: what it is lent, and what it must answer and leave.

use super::case::{double, doubles, words, Case};
use crate::factors::native::{Symmetric, Unsymmetric};
use crate::factors::Call;
use crate::graphs;
use crate::infnorm::{self, Rule};
use crate::matching::expected::{expected as expected_match, NUMBERS};
use crate::matching::native::{Lent, LIMITS};
use crate::scaling;
use crate::sparse::inputs::{Matrix, Triplets};
use crate::sparse::{stored, Kind};

/// The numbers of the calls, as the program `evidence_replay` has them.
const VALIDATE: [u64; 2] = [1, 2];
const TRIPLETS: [u64; 2] = [3, 4];
const SQRT: u64 = 5;
const MATCH: u64 = 6;
const GRAPH: [u64; 2] = [7, 8];
const LOG_FACTORS: u64 = 9;
const UNSYMMETRIC_FACTORS: u64 = 10;
const INFNORM: u64 = 11;
const ONEPASS: u64 = 12;
pub const SCALING: u64 = 13;

fn of_kind(numbers: [u64; 2], kind: Kind) -> u64 {
    numbers[(kind == Kind::General) as usize]
}

fn matrix_words(matrix: &Matrix) -> Vec<Vec<u64>> {
    vec![
        words(&matrix.col_ptr),
        words(&matrix.rows),
        doubles(&matrix.values),
    ]
}

pub fn validate(kind: Kind, matrix: &Matrix) -> Case {
    Case {
        call: of_kind(VALIDATE, kind),
        numbers: vec![matrix.n.into()],
        lent: vec![matrix_words(matrix)],
        answer: vec![kind.fault(matrix, matrix.lengths_fit()).into()],
        left: Vec::new(),
    }
}

pub fn triplets(kind: Kind, before: &Triplets) -> Case {
    let lent = |lent: &Triplets| {
        let (values, work) = (doubles(&lent.values), words(&lent.work));
        vec![words(&lent.col_ptr), words(&lent.row_idx), values, work]
    };
    let mut after = before.clone();
    let answer = match kind.assembly(before) {
        Err(number) => vec![number.into(), 0],
        Ok((col_ptr, row_idx, values)) => {
            let kept = row_idx.len();
            after.col_ptr = col_ptr;
            after.row_idx[..kept].copy_from_slice(&row_idx);
            after.values[..kept].copy_from_slice(&stored(&values));
            after.work.fill(0);
            vec![0, kept as u64]
        }
    };
    let given = vec![
        words(&before.rows),
        words(&before.cols),
        doubles(&before.vals),
    ];
    Case {
        call: of_kind(TRIPLETS, kind),
        numbers: vec![before.n.into()],
        lent: vec![[given, lent(before)].concat()],
        answer,
        left: lent(&after),
    }
}

/// Refusal 11 of SPECIFICATION 3.4, or Rust's root.
pub fn sqrt(x: f64) -> Case {
    Case {
        call: SQRT,
        numbers: vec![double(x)],
        lent: Vec::new(),
        answer: match x.is_nan() || x < 0.0 {
            true => vec![11, 0],
            false => vec![0, double(x.sqrt())],
        },
        left: Vec::new(),
    }
}

pub fn matching(graph: &Matrix, before: &Lent) -> Case {
    let lent = |lent: &Lent| {
        let (perm, work) = (words(&lent.perm), words(&lent.work));
        let (u, v, fwork) = (doubles(&lent.u), doubles(&lent.v), doubles(&lent.fwork));
        vec![perm, u, v, work, fwork]
    };
    let fit = graph.lengths_fit() && before.lengths_fit(graph.n as usize);
    let mut after = before.clone();
    let answer = match expected_match(graph, LIMITS, fit) {
        Err(number) => [vec![number.into()], vec![0; NUMBERS]].concat(),
        Ok(expected) => {
            (after.perm, after.u, after.v) = (expected.perm, expected.u, expected.v);
            after.work.fill(0);
            after.fwork.fill(0.0);
            [vec![0], expected.answer.to_vec()].concat()
        }
    };
    Case {
        call: MATCH,
        numbers: vec![graph.n.into()],
        lent: vec![[matrix_words(graph), lent(before)].concat()],
        answer,
        left: lent(&after),
    }
}

fn graph_words(call: &graphs::inputs::Call) -> Vec<Vec<u64>> {
    vec![
        words(&call.graph_ptr),
        words(&call.graph_rows),
        doubles(&call.cost),
        doubles(&call.cmax),
        words(&call.work),
    ]
}

pub fn graph(kind: Kind, before: &graphs::inputs::Call) -> Case {
    let mut after = before.clone();
    let answer = match graphs::expected::expected(kind, before) {
        Err(number) => vec![number.into(), 0],
        Ok(graph) => {
            let kept = graph.rows.len();
            after.graph_ptr = graph.pointers;
            after.graph_rows[..kept].copy_from_slice(&graph.rows);
            after.cost[..kept].copy_from_slice(&graph.cost);
            after.cmax = graph.cmax;
            after.work.fill(0);
            vec![0, kept as u64]
        }
    };
    let given = [matrix_words(&before.matrix), vec![doubles(&before.logs)]].concat();
    Case {
        call: of_kind(GRAPH, kind),
        numbers: vec![before.matrix.n.into()],
        lent: vec![[given, graph_words(before)].concat()],
        answer,
        left: graph_words(&after),
    }
}

pub fn log_factors(before: &Symmetric) -> Case {
    let given = &before.given;
    let mut after = before.clone();
    let answer = match before.expected() {
        Err(number) => vec![number.into(), 0, 0],
        Ok(left) => {
            after.factors = left.factors;
            after.work.fill(0);
            vec![0, (left.unmatched > 0) as u64, left.unmatched.into()]
        }
    };
    let lent = |lent: &Symmetric| vec![doubles(&lent.factors), words(&lent.work)];
    let duals = vec![doubles(&given.u), doubles(&given.v), doubles(&given.cmax)];
    Case {
        call: LOG_FACTORS,
        numbers: vec![given.n.into(), given.matched.into()],
        lent: vec![[vec![words(&given.perm)], duals, lent(before)].concat()],
        answer,
        left: lent(&after),
    }
}

pub fn unsymmetric_factors(before: &Unsymmetric) -> Case {
    let given = &before.given;
    let mut after = before.clone();
    let answer = match before.expected() {
        Err(number) => vec![number.into()],
        Ok(left) => {
            (after.rows, after.columns) = (left.rows, left.columns);
            vec![0]
        }
    };
    let lent = |lent: &Unsymmetric| vec![doubles(&lent.rows), doubles(&lent.columns)];
    let duals = vec![doubles(&given.u), doubles(&given.v), doubles(&given.cmax)];
    Case {
        call: UNSYMMETRIC_FACTORS,
        numbers: vec![given.n.into()],
        lent: vec![[duals, lent(before)].concat()],
        answer,
        left: lent(&after),
    }
}

pub fn infnorm(rule: Rule, before: &infnorm::Call) -> Case {
    let expected = before.expected(rule);
    let answer = vec![expected.as_ref().err().copied().unwrap_or(0).into()];
    let after = expected.unwrap_or_else(|_| before.clone());
    let lent = |lent: &infnorm::Call| match rule {
        Rule::Iterated => vec![doubles(&lent.factors), doubles(&lent.work)],
        Rule::OnePass => vec![doubles(&lent.factors)],
    };
    Case {
        call: match rule {
            Rule::Iterated => INFNORM,
            Rule::OnePass => ONEPASS,
        },
        numbers: vec![before.matrix.n.into()],
        lent: vec![[matrix_words(&before.matrix), lent(before)].concat()],
        answer,
        left: lent(&after),
    }
}

pub fn scaling(before: &scaling::inputs::Call) -> Case {
    let (after, answer) = match scaling::expected::expected(before) {
        Err(number) => (before.clone(), vec![number.into(), 0, 0]),
        Ok((after, _)) => {
            let answer = [vec![0], words(&after.info)].concat();
            (after, answer)
        }
    };
    let lent = |lent: &scaling::inputs::Call| {
        let first = vec![doubles(&lent.factors), doubles(&lent.maxima)];
        let (u, v) = (doubles(&lent.u), doubles(&lent.v));
        let (match_work, distances) = (words(&lent.match_work), doubles(&lent.distances));
        let (perm, factor_work) = (words(&lent.perm), words(&lent.factor_work));
        let last = vec![perm, u, v, match_work, distances, factor_work];
        [first, graph_words(&lent.building), last]
    };
    let given = vec![doubles(&before.external), doubles(&before.building.logs)];
    let [factors, graph, matched] = lent(before);
    let first = [matrix_words(&before.building.matrix), given, factors].concat();
    let mut left = lent(&after);
    left.reverse();
    Case {
        call: SCALING,
        numbers: vec![before.choice.into(), before.building.matrix.n.into()],
        lent: vec![first, graph, matched],
        answer,
        left: left.concat(),
    }
}
