//! Inputs at the limits and one past them, whose slices are long runs.

use super::calls;
use super::case::Case;
use crate::factors::matches::Match;
use crate::factors::native::{Symmetric, Unsymmetric};
use crate::graphs::inputs::Call as Building;
use crate::infnorm::{Call as Norm, Rule};
use crate::matching::native::Lent;
use crate::range::{above, last_cost};
use crate::scaling::inputs::{Call as Choice, CHOICES};
use crate::sparse::inputs::{Matrix, Triplets};
use crate::sparse::{Kind, ROW_LIMIT};
use oracle::random::Random;
use suontarvi::matching::NONE;

const KINDS: [Kind; 2] = [Kind::Symmetric, Kind::General];

/// Entries of the matrices whose graphs are built.
const FEW: usize = 500;

pub fn cases(random: &mut Random) -> Vec<Case> {
    let mut cases = Vec::new();
    for kind in KINDS {
        for matrix in matrices(kind) {
            cases.push(calls::validate(kind, &matrix));
        }
        for triplets in triplets(kind) {
            cases.push(calls::triplets(kind, &triplets));
        }
        for matrix in sparse_matrices(kind) {
            cases.push(calls::graph(kind, &building(kind, matrix, random)));
        }
    }
    for mut graph in matrices(Kind::General) {
        let last = last_cost(graph.n);
        for cost in [0.0, 2.5, 68_719_476_735.0, last, above(last)] {
            graph.values.fill(cost);
            cases.push(calls::matching(&graph, &lent(&graph, random)));
        }
    }
    for given in matches() {
        cases.push(calls::log_factors(&symmetric(&given, random)));
        cases.push(calls::unsymmetric_factors(&unsymmetric(&given, random)));
    }
    for mut matrix in matrices(Kind::Symmetric) {
        matrix.values.fill(2.5);
        let call = norm(matrix, random);
        cases.push(calls::infnorm(Rule::Iterated, &call));
        cases.push(calls::infnorm(Rule::OnePass, &call));
    }
    for choice in CHOICES {
        for matrix in sparse_matrices(Kind::Symmetric) {
            cases.push(calls::scaling(&chosen(choice, matrix, random)));
        }
    }
    cases
}

/// The first columns full, up to the count of entries.
fn full(kind: Kind, n: u32, entries: usize) -> Matrix {
    let mut matrix = Matrix {
        n,
        col_ptr: vec![0],
        rows: Vec::new(),
        values: vec![1.0; entries],
    };
    for column in 0..n {
        let first = match kind {
            Kind::Symmetric => column,
            Kind::General => 0,
        };
        let room = entries - matrix.rows.len();
        matrix.rows.extend((first..n).take(room));
        matrix.col_ptr.push(matrix.rows.len() as u32);
    }
    matrix
}

/// One entry in each of the first columns, on the diagonal.
fn diagonal(n: u32, entries: usize) -> Matrix {
    Matrix {
        n,
        col_ptr: (0..=n).map(|column| column.min(entries as u32)).collect(),
        rows: (0..entries as u32).collect(),
        values: vec![2.5; entries],
    }
}

/// More entries than any limit allows, and no more slices.
fn overfull(kind: Kind, n: u32) -> Matrix {
    Matrix {
        n,
        col_ptr: Vec::new(),
        rows: vec![0; kind.entry_limit() + 1],
        values: Vec::new(),
    }
}

/// The last entry is damaged.
fn damaged(mut matrix: Matrix, last: u32) -> Matrix {
    *matrix.rows.last_mut().expect("there is an entry") = last;
    matrix
}

fn matrices(kind: Kind) -> Vec<Matrix> {
    let most = kind.entry_limit();
    vec![
        full(kind, ROW_LIMIT, most),
        damaged(full(kind, ROW_LIMIT, most), ROW_LIMIT),
        damaged(full(kind, ROW_LIMIT, most), 0),
        full(kind, ROW_LIMIT, most + 1),
        overfull(kind, ROW_LIMIT),
        overfull(kind, ROW_LIMIT + 1),
        diagonal(ROW_LIMIT, ROW_LIMIT as usize),
        diagonal(ROW_LIMIT, 0),
        diagonal(ROW_LIMIT + 1, 0),
        diagonal(ROW_LIMIT + 1, 1),
    ]
}

/// Those whose graphs fit the program's smaller slices.
fn sparse_matrices(kind: Kind) -> Vec<Matrix> {
    vec![
        diagonal(ROW_LIMIT, FEW),
        damaged(diagonal(ROW_LIMIT, FEW), ROW_LIMIT),
        diagonal(ROW_LIMIT, 0),
        diagonal(ROW_LIMIT + 1, 0),
        overfull(kind, ROW_LIMIT),
        overfull(kind, ROW_LIMIT + 1),
    ]
}

fn triplets(kind: Kind) -> Vec<Triplets> {
    let corner = ROW_LIMIT - 1;
    let corners = vec![corner, 0, corner, corner, 0, corner];
    let columns = vec![corner, 0, 0, corner, 0, 0];
    vec![
        assembly(ROW_LIMIT, corners.clone(), columns.clone()),
        assembly(ROW_LIMIT, vec![corner; FEW], vec![7; FEW]),
        assembly(ROW_LIMIT, columns.clone(), corners.clone()),
        assembly(ROW_LIMIT, vec![corner, ROW_LIMIT], vec![0, 0]),
        assembly(ROW_LIMIT + 1, corners, columns),
        assembly(ROW_LIMIT, Vec::new(), Vec::new()),
        assembly(ROW_LIMIT, vec![0; kind.entry_limit() + 1], Vec::new()),
        assembly(ROW_LIMIT + 1, vec![0; kind.entry_limit() + 1], Vec::new()),
    ]
}

/// The triplets with slices of the right lengths; where there are more rows than columns, of those of the columns.
fn assembly(n: u32, rows: Vec<u32>, cols: Vec<u32>) -> Triplets {
    let count = cols.len();
    Triplets {
        n,
        rows,
        cols,
        vals: vec![0.1; count],
        col_ptr: vec![5; n as usize + 1],
        row_idx: vec![6; count],
        values: vec![-0.0; count],
        work: vec![7; 2 * n as usize + 2 + count],
    }
}

/// Any contents are one number throughout.
fn lent(graph: &Matrix, random: &mut Random) -> Lent {
    let mut lent = Lent::new(graph.col_ptr.len().saturating_sub(1), random);
    lent.perm.fill(3);
    lent.u.fill(f64::NAN);
    lent.v.fill(-0.0);
    lent.work.fill(NONE);
    lent.fwork.fill(1.5);
    lent
}

fn building(kind: Kind, matrix: Matrix, random: &mut Random) -> Building {
    let shorter = matrix.col_ptr.is_empty();
    let values = matrix.values.clone();
    let mut call = Building::new(kind, matrix, random);
    call.logs = oracle::logs(&values);
    call.matrix.values = values;
    call.graph_ptr.fill(5);
    call.graph_rows.fill(6);
    call.cost.fill(-0.0);
    call.cmax.fill(f64::INFINITY);
    call.work.fill(7);
    if shorter {
        call.graph_rows.clear();
        call.cost.clear();
        call.work.clear();
    }
    call
}

fn matches() -> Vec<Match> {
    let given = |n: u32, perm: Vec<u32>, matched: u32| Match {
        n,
        matched,
        u: vec![1.5; perm.len()],
        v: vec![-0.5; perm.len()],
        cmax: vec![4.0; perm.len()],
        perm,
    };
    let rising = |n: u32| (0..n).collect::<Vec<u32>>();
    let size = ROW_LIMIT as usize;
    vec![
        given(ROW_LIMIT, rising(ROW_LIMIT), ROW_LIMIT),
        given(ROW_LIMIT, rising(ROW_LIMIT), ROW_LIMIT + 1),
        given(ROW_LIMIT, rising(ROW_LIMIT), 1),
        given(ROW_LIMIT, vec![NONE; size], 0),
        given(ROW_LIMIT, vec![ROW_LIMIT; size], 0),
        given(ROW_LIMIT, vec![ROW_LIMIT - 1; size], 1),
        given(ROW_LIMIT + 1, rising(ROW_LIMIT + 1), 0),
        given(NONE, Vec::new(), 0),
    ]
}

fn symmetric(given: &Match, random: &mut Random) -> Symmetric {
    let mut call = Symmetric::new(given, random);
    call.factors.fill(-0.0);
    call.work.fill(9);
    call
}

fn unsymmetric(given: &Match, random: &mut Random) -> Unsymmetric {
    let mut call = Unsymmetric::new(given, random);
    call.rows.fill(-0.0);
    call.columns.fill(f64::NAN);
    call
}

fn norm(matrix: Matrix, random: &mut Random) -> Norm {
    let mut call = Norm::new(matrix, random);
    call.factors.fill(-0.0);
    call.work.fill(f64::NAN);
    call
}

fn chosen(choice: suontarvi::scaling::Choice, matrix: Matrix, random: &mut Random) -> Choice {
    let mut call = Choice::new(choice, matrix.clone(), random);
    let lent = lent(&matrix, random);
    call.building = building(Kind::Symmetric, matrix, random);
    call.external.fill(0.25);
    call.factors.fill(-0.0);
    call.maxima.fill(f64::NAN);
    (call.perm, call.u, call.v) = (lent.perm, lent.u, lent.v);
    (call.match_work, call.distances) = (lent.work, lent.fwork);
    call.factor_work.fill(8);
    call
}
