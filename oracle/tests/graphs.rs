//! The recorded cost graphs: against the rules of SPECIFICATION 6 restated here,
//! and matched again against the unchanged file's own matching.

use oracle::random::Random;
use oracle::{General, Graph, Match, Matched, Symmetric};

/// Rows, logs and largest log of one column, from its kept entries by rising
/// row: the cost is the largest log minus the log.
fn column_by_01(entries: &[(usize, f64)], empty: f64) -> (Vec<usize>, Vec<f64>, f64) {
    let mut largest = f64::NEG_INFINITY;
    for &(_, log) in entries {
        if log > largest {
            largest = log;
        }
    }
    let rows = entries.iter().map(|entry| entry.0).collect();
    let costs = entries.iter().map(|entry| largest - entry.1).collect();
    (
        rows,
        costs,
        if entries.is_empty() { empty } else { largest },
    )
}

fn same_bits(left: &[f64], right: &[f64]) -> bool {
    left.len() == right.len()
        && left
            .iter()
            .zip(right)
            .all(|(l, r)| l.to_bits() == r.to_bits())
}

/// Compares a graph with the kept entries of each column.
fn check_graph(graph: &Graph, cmax: &[f64], kept: &[Vec<(usize, f64)>], empty: f64) {
    assert_eq!(graph.n(), kept.len());
    assert_eq!(graph.col_ptr().len(), kept.len() + 1);
    assert_eq!(graph.col_ptr()[0], 0);
    for (j, entries) in kept.iter().enumerate() {
        let stretch = graph.col_ptr()[j]..graph.col_ptr()[j + 1];
        let (rows, costs, largest) = column_by_01(entries, empty);
        assert_eq!(graph.row_idx()[stretch.clone()], rows);
        assert!(same_bits(&graph.cost()[stretch], &costs));
        assert!(same_bits(&cmax[j..=j], &[largest]));
    }
}

/// The recorded graph, matched, is the unchanged file's matching.
fn check_match(found: Match, cmax: &[f64], matched: &Matched) {
    assert_eq!(found.perm, matched.perm);
    assert_eq!(found.n_matched, matched.n_matched);
    assert!(same_bits(&found.u, &matched.u) && same_bits(&found.v, &matched.v));
    assert!(same_bits(cmax, &matched.cmax));
}

fn values(random: &mut Random, count: usize, zeros: usize) -> Vec<f64> {
    let value = |random: &mut Random| match random.chance(zeros) {
        true => [0.0, -0.0][random.below(2)],
        false => random.spread(40),
    };
    (0..count).map(|_| value(random)).collect()
}

#[test]
fn symmetric_graphs_are_those_of_01() {
    let mut random = Random::new(2);
    for round in 0..400 {
        let n = random.below(25);
        let (col_ptr, row_idx) = random.lower_pattern(n, 50 + round % 500);
        let values = values(&mut random, row_idx.len(), 100);
        let mut kept = vec![Vec::new(); n];
        for j in 0..n {
            for k in col_ptr[j]..col_ptr[j + 1] {
                let (i, log) = (row_idx[k], values[k].abs().ln());
                if values[k] != 0.0 {
                    kept[j].push((i, log));
                    if i != j {
                        kept[i].push((j, log));
                    }
                }
            }
        }
        kept.iter_mut()
            .for_each(|column| column.sort_by_key(|entry| entry.0));
        let matrix = Symmetric::new(n, col_ptr, row_idx, values);
        let (graph, cmax) = matrix.cost_graph();
        check_graph(&graph, &cmax, &kept, f64::NEG_INFINITY);
        check_match(graph.run(), &cmax, &matrix.matching());
    }
}

#[test]
fn general_graphs_are_those_of_01() {
    let mut random = Random::new(3);
    for round in 0..400 {
        let n = random.below(25);
        let (col_ptr, row_idx) = random.pattern(n, 50 + round % 500);
        // Half of the matrices keep every entry: the original then builds the
        // graph another way.
        let zeros = if round % 2 == 0 { 0 } else { 100 };
        let mut values = values(&mut random, row_idx.len(), zeros);
        if zeros > 0 && !values.is_empty() {
            let at = random.below(values.len());
            values[at] = [f64::NAN, f64::INFINITY, f64::NEG_INFINITY][random.below(3)];
        }
        let entries = |j: usize| (col_ptr[j]..col_ptr[j + 1]).map(|k| (row_idx[k], values[k]));
        let of_column = |j: usize| {
            let kept = entries(j).filter(|(_, value)| value.is_finite() && *value != 0.0);
            kept.map(|(row, value)| (row, value.abs().ln())).collect()
        };
        let kept: Vec<Vec<(usize, f64)>> = (0..n).map(of_column).collect();
        let matrix = General::new(n, col_ptr, row_idx, values);
        let (graph, cmax) = matrix.cost_graph();
        check_graph(&graph, &cmax, &kept, 0.0);
        check_match(graph.run(), &cmax, &matrix.matching());
    }
}

/// SPECIFICATION refuses this with 9.
#[test]
fn a_symmetric_value_that_is_not_finite_costs_nan() {
    for value in [f64::INFINITY, f64::NAN] {
        let (graph, cmax) = Symmetric::new(1, vec![0, 1], vec![0], vec![value]).cost_graph();
        assert!(graph.cost()[0].is_nan() && !cmax[0].is_finite());
    }
}

#[test]
fn lent_logs_are_those_of_the_graph() {
    let values = [3.0, -0.5, 1e-300, 7.25];
    let matrix = General::new(1, vec![0, 1], vec![0], vec![values[0]]);
    assert_eq!(matrix.cost_graph().1, oracle::logs(&values[..1]));
    let matrix = General::new(2, vec![0, 2, 4], vec![0, 1, 0, 1], values.to_vec());
    let (graph, cmax) = matrix.cost_graph();
    let logs = oracle::logs(&values);
    let costs = [
        cmax[0] - logs[0],
        cmax[0] - logs[1],
        cmax[1] - logs[2],
        cmax[1] - logs[3],
    ];
    assert!(same_bits(graph.cost(), &costs));
}
