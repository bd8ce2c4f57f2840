//! The sample sheets of SPECIFICATION 13, by their numbers, through the crate. A checkout of the original is not
//! needed.

use suontarvi::matching::Counts;
use suontarvi::scaling::{Choice, Done};
use suontarvi::{CostGraph, GeneralMatrix, Matching, NONE, Refusal, SymmetricMatrix, graphs, lengths, sqrt, whole_log};

/// The match of columns that are written {row: cost, ...}.
fn matched(columns: &[&[(u32, f64)]]) -> Matching {
    let entries = columns.iter().zip(0..).flat_map(|(column, j)| column.iter().map(move |&(row, cost)| (row, j, cost)));
    CostGraph::from_entries(columns.len(), entries).unwrap().matching()
}

fn counts(of: &Matching) -> [u64; 7] {
    let Counts { heap_slots, searches, rows_touched, inner_steps, entries_scanned, rows_popped, largest_heap } =
        of.counts.unwrap();
    [heap_slots, searches, rows_touched, inner_steps, entries_scanned, rows_popped, largest_heap]
}

#[test]
fn sample_01_nothing() {
    let found = matched(&[]);
    assert_eq!((found.matched, counts(&found)), (0, [0; 7]));
    assert_eq!(found.log_factors().unwrap().unmatched, 0);
    let scaled = SymmetricMatrix::from_entries(0, []).unwrap().chosen(Choice::Mc64Symmetric, &[]).unwrap();
    assert_eq!((scaled.done, scaled.factors), (Done::Applied, vec![]));
}

#[test]
fn sample_02_the_sheet() {
    let found = matched(&[&[(0, 1.0), (1, 3.0)], &[(0, 1.0), (1, 2.0), (2, 5.0)], &[(0, 0.0), (1, 0.0), (2, 0.0)]]);
    assert_eq!((found.matched, &found.perm[..]), (3, &[0, 1, 2][..]));
    assert_eq!((&found.u[..], &found.v[..]), (&[-1.0, 0.0, 0.0][..], &[2.0, 2.0, 0.0][..]));
    assert_eq!(counts(&found), [5, 1, 2, 3, 8, 2, 2]);
}

#[test]
fn sample_03_inner_steps() {
    let found = matched(&[&[(0, 0.0), (1, 5.0)], &[(0, 0.0), (1, 1.0)]]);
    assert_eq!((found.perm.clone(), found.u.clone(), found.v.clone()), (vec![0, 1], vec![0.0, 1.0], vec![0.0; 2]));
    let [_, searches, _, inner_steps, ..] = counts(&found);
    assert_eq!((searches, inner_steps), (0, 2));
}

#[test]
fn sample_04_crossed() {
    let found = matched(&[&[(0, 0.0), (1, 3.0)], &[(0, 0.0), (1, 5.0)]]);
    assert_eq!((found.perm, found.u, found.v), (vec![1, 0], vec![0.0, 3.0], vec![0.0; 2]));
}

#[test]
fn sample_05_one_row_for_two() {
    let found = matched(&[&[(0, 1.0)], &[(0, 2.0)]]);
    assert_eq!((found.matched, counts(&found)), (1, [3, 1, 1, 1, 2, 1, 1]));
    assert_eq!((found.perm, found.u, found.v), (vec![0, NONE], vec![1.0, 0.0], vec![0.0; 2]));
}

/// The symmetric log factor of one value with this log.
fn log_factor(log: f64) -> f64 {
    let matrix = SymmetricMatrix::from_entries(1, [(0, 0, 1.0)]).unwrap();
    let found = matrix.cost_graph(&[log]).unwrap().matching();
    found.log_factors().unwrap().logs[0]
}

#[test]
fn samples_06_and_08_log_factors() {
    assert_eq!(log_factor(3.0), -1.5);
    assert_eq!(log_factor(-1418.0), 709.0);
    assert_eq!(log_factor(-1420.0), 709.0);
}

#[test]
fn sample_07_zero() {
    let symmetric = SymmetricMatrix::from_entries(1, [(0, 0, 0.0)]).unwrap();
    let graph = symmetric.cost_graph(&symmetric.logs()).unwrap();
    assert_eq!((graph.row_idx().len(), graph.cmax()), (0, &[f64::NEG_INFINITY][..]));
    assert_eq!(graph.matching().log_factors().unwrap().unmatched, 1);
    let general = GeneralMatrix::from_entries(1, [(0, 0, 0.0)]).unwrap();
    assert_eq!(general.cost_graph(&general.logs()).unwrap().cmax()[0].to_bits(), 0);
    let scaled = symmetric.chosen(Choice::Mc64Symmetric, &symmetric.logs()).unwrap();
    assert_eq!((scaled.done, scaled.factors), (Done::PartialSingular(1), vec![0.0]));
}

#[test]
fn sample_09_largest_costs() {
    let one = |n, cost| CostGraph::from_entries(n, [(0, 0, cost)]).map(|graph| graph.matching().matched);
    let power = |exponent| 2f64.powi(exponent);
    for (n, limit) in [(4096, power(36)), (1, power(48))] {
        assert_eq!(one(n, limit), Err(Refusal::CostRange));
        assert_eq!(one(n, limit - 1.0), Ok(1));
    }
    // of the doubles beside 2^48 / 3, which is no double
    let below = f64::from_bits((power(48) / 3.0).to_bits());
    let (below, above) = if below * 3.0 > power(48) { (below.next_down(), below) } else { (below, below.next_up()) };
    assert_eq!((one(3, below), one(3, above)), (Ok(1), Err(Refusal::CostRange)));
}

#[test]
fn sample_10_roots() {
    assert_eq!(sqrt(2.0).unwrap().to_bits(), 0x3FF6_A09E_667F_3BCD);
    assert_eq!(sqrt(f64::from_bits(1)), Ok(2f64.powi(-537)));
}

#[test]
fn sample_11_inf_norm() {
    let matrix = SymmetricMatrix::from_entries(1, [(0, 0, 4.0)]).unwrap();
    assert_eq!((matrix.infnorm_factors(), matrix.onepass_factors()), (vec![0.5], vec![0.5]));
}

/// Rows 1 and 2 at 0 in column 0 and further rows at 9 up to its length, rows 0 and 1 at 0 in column 1, rows 1 and 2 at
/// 7 in column 2, every other column its own row at 0: perm begins 2 0 1 if column 0 was claimed, else 1 0 2.
fn claimed(n: usize, length: u32) -> bool {
    let first = (1..=length).map(|row| (row, 0, if row <= 2 { 0.0 } else { 9.0 }));
    let others = [(0, 1, 0.0), (1, 1, 0.0), (1, 2, 7.0), (2, 2, 7.0)];
    let own = (3..n as u32).map(|j| (j, j, 0.0));
    let found = CostGraph::from_entries(n, first.chain(others).chain(own)).unwrap().matching();
    match found.perm[..3] {
        [2, 0, 1] => true,
        [1, 0, 2] => false,
        _ => panic!("perm begins {:?}", &found.perm[..3]),
    }
}

#[test]
fn sample_12_long_columns() {
    assert_eq!((claimed(50, 6), claimed(51, 5), claimed(51, 6)), (true, true, false));
}

#[test]
fn sample_13_whole_logs() {
    let values = [1.0, 2.0, 0.5, 3.0, -10.0, f64::from_bits(1), f64::MAX];
    let logs = [0, 65_536, -65_536, 103_872, 217_705, -70_385_664, 67_108_863];
    assert_eq!(values.map(|value| whole_log(value).unwrap()), logs);
}

#[test]
fn sample_14_a_symmetric_file() {
    let matrix = SymmetricMatrix::from_entries(3, [(1, 0, -8.0), (2, 1, 1024.0), (2, 0, 3.0)]).unwrap();
    let found = matrix.whole_cost_graph().unwrap().matching();
    assert_eq!((found.matched, counts(&found)), (3, [4, 1, 1, 2, 4, 1, 1]));
    assert_eq!(found.perm, [2, 0, 1]);
    assert_eq!((&found.u[..], &found.v[..]), (&[458752.0, -92736.0, 0.0][..], &[92736.0, 0.0, 92736.0][..]));
    // the graph of its pairs has the same pairs
    let pairs = found.pairs().map(|(row, column)| (row as u32, column as u32, 0.0));
    assert_eq!(CostGraph::from_entries(3, pairs).unwrap().matching().perm, found.perm);
}

#[test]
fn sample_15_inf_norm_of_two() {
    let matrix = SymmetricMatrix::from_entries(2, [(0, 0, 16.0), (1, 0, 1.0), (1, 1, 0.25)]).unwrap();
    assert_eq!((matrix.infnorm_factors(), matrix.onepass_factors()), (vec![0.25, 2.0], vec![0.25, 1.0]));
}

/// The chooser's MC64, lent every slice, leaves what building, match and factors leave one after the other.
#[test]
fn the_chooser_agrees() {
    let matrix = SymmetricMatrix::from_entries(3, [(0, 0, 4.0), (1, 0, 2.0), (2, 1, 8.0), (2, 2, 1.0)]).unwrap();
    let (n, m, logs) = (3, matrix.values().len(), matrix.logs());
    let (mut factors, mut cost, mut cmax) = (vec![0.0; n], vec![0.0; 2 * m], vec![0.0; n]);
    let (mut graph_ptr, mut graph_rows) = (vec![0; n + 1], vec![0; 2 * m]);
    let (mut perm, mut u, mut v) = (vec![0; n], vec![0.0; n], vec![0.0; n]);
    let done = suontarvi::scaling::scaling(
        Choice::Mc64Symmetric,
        n as u32,
        matrix.col_ptr(),
        matrix.row_idx(),
        matrix.values(),
        &[],
        &logs,
        &mut factors,
        &mut [],
        &mut graph_ptr,
        &mut graph_rows,
        &mut cost,
        &mut cmax,
        &mut vec![0; lengths::graph_work(n, m)],
        &mut perm,
        &mut u,
        &mut v,
        &mut vec![0; lengths::match_work(n)],
        &mut vec![0.0; lengths::match_fwork(n)],
        &mut vec![0; n],
    );
    let graph = matrix.cost_graph(&logs).unwrap();
    let found = graph.matching();
    assert_eq!(done, Ok(Done::Applied));
    assert_eq!((&graph_ptr[..], &cmax[..]), (graph.col_ptr(), graph.cmax()));
    assert_eq!((perm, u, v), (found.perm.clone(), found.u.clone(), found.v.clone()));
    assert_eq!(factors, found.log_factors().unwrap().logs);
    assert_eq!(matrix.chosen(Choice::Mc64Symmetric, &logs).unwrap().factors, factors);
}

/// Both kinds of graphs of one matrix, lent and owned.
#[test]
fn both_triangles_have_the_graph_of_one() {
    let matrix = SymmetricMatrix::from_entries(3, [(0, 0, -0.0), (1, 0, 2.0), (2, 1, 8.0), (2, 2, -1.0)]).unwrap();
    let general = matrix.to_general();
    assert_eq!(general.values()[0].to_bits(), matrix.values()[0].to_bits());
    let (one, both) = (matrix.whole_cost_graph().unwrap(), general.whole_cost_graph().unwrap());
    assert_eq!((one.col_ptr(), one.row_idx(), one.cost()), (both.col_ptr(), both.row_idx(), both.cost()));
    assert_eq!(one.check(&both.matching()), Ok(()));
    let (m, mut work) = (general.values().len(), vec![7; lengths::graph_work(3, general.values().len())]);
    let (mut ptr, mut rows, mut cost, mut cmax) = ([9; 4], vec![9; m], vec![9.0; m], [9.0; 3]);
    let (col_ptr, row_idx, values) = (general.col_ptr(), general.row_idx(), general.values());
    let kept =
        graphs::whole_general_graph(3, col_ptr, row_idx, values, &mut ptr, &mut rows, &mut cost, &mut cmax, &mut work);
    assert_eq!(kept.map(|kept| &rows[..kept]), Ok(both.row_idx()));
    assert!(work.iter().all(|word| *word == 0));
}
