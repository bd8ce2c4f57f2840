//! One refusal of every call of the header at least, and every number of the table.

use std::collections::BTreeSet;
use std::fs;

use suontarvi::factors::{self, Rule};
use suontarvi::scaling::{self, Choice};
use suontarvi::{Matching, NONE, Refusal, exponents, graphs, lengths, matching, raw, rows, sheets, sparse};

/// A call by its name in the header, behind `suontarvi_`, and what it was refused with.
type Refused = (&'static str, Refusal);

fn refused<T>(call: &'static str, answer: Result<T, Refusal>) -> Refused {
    (call, answer.err().unwrap_or_else(|| panic!("{call} was accepted")))
}

fn numbers() -> Vec<Refused> {
    vec![
        refused("sqrt", suontarvi::sqrt(f64::NAN)),
        refused("sqrt", raw::sqrt(1.0, &mut [0; 7])),
        refused("whole_log", suontarvi::whole_log(-0.0)),
        refused("whole_log", raw::whole_log(1.0, &mut [])),
    ]
}

fn matrices() -> Vec<Refused> {
    let (mut ptr, mut idx, mut values, mut work) = ([0; 3], [0; 1], [0.0; 1], [0; lengths::triplets_work(2, 1)]);
    let many = vec![0; lengths::MAX_SYMMETRIC_ENTRIES + 1];
    vec![
        refused("validate_symmetric", sparse::validate_symmetric(2, &[0, 0, 1], &[0], &[1.0])),
        refused("validate_symmetric", sparse::validate_symmetric(4097, &[], &[], &[])),
        refused("validate_symmetric", sparse::validate_symmetric(2, &[0, 0, 0], &many, &[])),
        refused("validate_general", sparse::validate_general(2, &[0, 2, 1], &[0], &[1.0])),
        refused(
            "triplets_symmetric",
            sparse::triplets_symmetric(2, &[0], &[1], &[1.0], &mut ptr, &mut idx, &mut values, &mut work),
        ),
        refused(
            "triplets_general",
            sparse::triplets_general(2, &[0], &[2], &[1.0], &mut ptr, &mut idx, &mut values, &mut work),
        ),
    ]
}

fn matches() -> Vec<Refused> {
    let (mut perm, mut u, mut v) = ([0], [0.0], [0.0]);
    let (mut work, mut fwork) = ([0; lengths::match_work(1)], [0.0; lengths::match_fwork(1)]);
    let check = |cost: f64, perm: u32, u: f64| {
        refused("check_match", matching::check_match(1, &[0, 1], &[0], &[cost], &[perm], &[u], &[0.0]))
    };
    let gap = |digits: u32, perm: u32, u: f64| {
        refused("match_gap", matching::match_gap(1, digits, &[0, 1], &[0], &[4.0], &[perm], &[u], &[0.0]))
    };
    let largest = |rows: [u32; 2], perm: [u32; 2]| {
        let (mut columns, mut marks) = ([0; 2], [0; 2]);
        let answer = matching::check_largest(2, &[0, 1, 2], &rows, &perm, &mut columns, &mut marks);
        refused("check_largest", answer)
    };
    let (mut row_ptr, mut cols, mut places) = ([0; 3], [0; 2], [0; 2]);
    vec![
        refused(
            "match",
            matching::hungarian_match(1, &[0, 1], &[0], &[f64::NAN], &mut perm, &mut u, &mut v, &mut work, &mut fwork),
        ),
        refused("match_bytes", matching::hungarian_match_bytes(257, &[], &[], &[], &mut [], &mut [], &mut [], &mut [])),
        check(0.5, 0, 0.5),
        check(4.0, NONE, 4.0),
        check(4.0, 0, 5.0),
        check(4.0, 0, 3.0),
        gap(51, NONE, f64::NAN),
        refused("match_gap", raw::match_gap(1, 0, &[0, 1], &[0], &[4.0], &[0], &[4.0], &[0.0], &mut [0; 2])),
        gap(48, 0, 4.0),
        gap(47, NONE, f64::NAN),
        gap(47, 0, 4.5),
        refused("check_largest", raw::check_largest(0, &[0], &[], &[], &mut [], &mut [], &mut [])),
        largest([0, 2], [NONE, NONE]),
        largest([0, 0], [0, 0]),
        largest([0, 1], [0, NONE]),
        refused(
            "row_index",
            rows::row_index(2, &[0, 2, 2], &[1, 1], &[0.0; 2], &mut row_ptr, &mut cols, &mut places, &mut [0; 2]),
        ),
    ]
}

fn sheet_files() -> Vec<Refused> {
    let read = |sheet: &[u8]| refused("read_sheet", Matching::from_sheet(sheet));
    let canonical = |sheet: &[u8]| refused("read_canonical_sheet", Matching::from_canonical_sheet(sheet));
    let mut sheet = [0; lengths::sheet(1)];
    vec![
        refused("write_sheet", sheets::write_sheet(1, 1, &[NONE], &[0.0], &[0.0], &[0.0], &mut sheet)),
        read(&[1]),
        read(&[1, 0, 1, 0, 0]),
        read(&[1, 0, 0, 0, 0, 0, 0, 0]),
        canonical(&[2, 0, 1, 0, 1, 0, 0, 0, 0, 1, 0, 0]),
        canonical(&[1, 0, 0, 0, 0]),
    ]
}

fn cost_graphs() -> Vec<Refused> {
    let (mut ptr, mut cmax, mut work) = ([0; 2], [0.0], [0; lengths::graph_work(1, 1)]);
    let (mut one, mut two, mut cost, mut costs) = ([0; 1], [0; 2], [0.0; 1], [0.0; 2]);
    let nan = [f64::NAN];
    vec![
        refused(
            "symmetric_graph",
            graphs::symmetric_graph(
                1,
                &[0, 1],
                &[0],
                &nan,
                &[0.0],
                &mut ptr,
                &mut two,
                &mut costs,
                &mut cmax,
                &mut work,
            ),
        ),
        refused(
            "general_graph",
            graphs::general_graph(1, &[0, 1], &[0], &[1.0], &nan, &mut ptr, &mut one, &mut cost, &mut cmax, &mut work),
        ),
        refused(
            "whole_symmetric_graph",
            graphs::whole_symmetric_graph(1, &[0, 1], &[0], &nan, &mut ptr, &mut two, &mut costs, &mut cmax, &mut work),
        ),
        refused(
            "whole_general_graph",
            graphs::whole_general_graph(1, &[0, 1], &[0], &nan, &mut ptr, &mut one, &mut cost, &mut cmax, &mut work),
        ),
    ]
}

fn log_factors() -> Vec<Refused> {
    let (mut logs, mut other, mut work) = ([0.0], [0.0], [0]);
    let by_rule = |rule: u32, n: u32| {
        raw::log_factors_by_rule(rule, n, 0, &[], &[], &[], &[], &[], &[], &[], &[], &mut [], &mut [], &mut [])
    };
    let zero = [0.0];
    vec![
        refused("log_factors", factors::log_factors(1, 2, &[0], &zero, &zero, &zero, &mut logs, &mut work)),
        refused("log_factors_by_rule", by_rule(2, 9999)),
        refused("log_factors_by_rule", by_rule(Rule::Flat as u32, 9999)),
        refused("unsymmetric_factors", factors::unsymmetric_factors(1, &[], &zero, &zero, &mut logs, &mut other)),
        refused("log_factors_bytes", factors::log_factors_bytes(257, 0, &[], &[], &[], &[], &mut [], &mut [])),
        refused(
            "unsymmetric_factors_bytes",
            factors::unsymmetric_factors_bytes(1, &[], &[], &[], &mut [0; 8], &mut [0; 8]),
        ),
    ]
}

fn scalings() -> Vec<Refused> {
    let (mut rows, mut columns, mut values) = ([0], [0], [f64::MIN_POSITIVE]);
    let choose = |choice: u32| {
        raw::scaling(
            choice,
            1,
            &[0, 0],
            &[],
            &[],
            &[],
            &[],
            &mut [0.0],
            &mut [],
            &mut [],
            &mut [],
            &mut [],
            &mut [],
            &mut [],
            &mut [],
            &mut [],
            &mut [],
            &mut [],
            &mut [],
            &mut [],
            &mut [0; 2],
        )
    };
    vec![
        refused("exponents", exponents::exponents(1, &[0.5], &[0.0], &[0.0], &mut rows, &mut columns)),
        refused("apply_exponents", exponents::apply_exponents(1, &[0, 1], &[0], &[-1], &[0], &mut values)),
        refused("infnorm", scaling::infnorm(1, &[0, 1], &[1], &[1.0], &mut [0.0], &mut [0.0])),
        refused("onepass", scaling::onepass(1, &[0, 1], &[0], &[1.0], &mut [])),
        refused("scaling", choose(Choice::External.into())),
        refused("scaling", choose(5)),
        refused("scaling", choose(Choice::InfNorm.into())),
    ]
}

fn all() -> Vec<Refused> {
    [numbers(), matrices(), matches(), sheet_files(), cost_graphs(), log_factors(), scalings()].concat()
}

#[test]
fn as_expected() {
    let numbers: Vec<(&str, u32)> = all().into_iter().map(|(call, refusal)| (call, refusal.number())).collect();
    let expected = [
        ("sqrt", 11),
        ("sqrt", 3),
        ("whole_log", 9),
        ("whole_log", 3),
        ("validate_symmetric", 6),
        ("validate_symmetric", 1),
        ("validate_symmetric", 2),
        ("validate_general", 4),
        ("triplets_symmetric", 6),
        ("triplets_general", 5),
        ("match", 8),
        ("match_bytes", 1),
        ("check_match", 8),
        ("check_match", 30),
        ("check_match", 31),
        ("check_match", 32),
        ("match_gap", 5),
        ("match_gap", 3),
        ("match_gap", 8),
        ("match_gap", 30),
        ("match_gap", 31),
        ("check_largest", 3),
        ("check_largest", 5),
        ("check_largest", 30),
        ("check_largest", 33),
        ("row_index", 7),
        ("write_sheet", 10),
        ("read_sheet", 40),
        ("read_sheet", 41),
        ("read_sheet", 42),
        ("read_canonical_sheet", 44),
        ("read_canonical_sheet", 45),
        ("symmetric_graph", 9),
        ("general_graph", 8),
        ("whole_symmetric_graph", 9),
        ("whole_general_graph", 9),
        ("log_factors", 10),
        ("log_factors_by_rule", 5),
        ("log_factors_by_rule", 1),
        ("unsymmetric_factors", 3),
        ("log_factors_bytes", 1),
        ("unsymmetric_factors_bytes", 3),
        ("exponents", 43),
        ("apply_exponents", 46),
        ("infnorm", 5),
        ("onepass", 3),
        ("scaling", 12),
        ("scaling", 5),
        ("scaling", 3),
    ];
    assert_eq!(numbers, expected);
}

#[test]
fn every_call_and_every_number() {
    let header = fs::read_to_string(concat!(env!("CARGO_MANIFEST_DIR"), "/../include/suontarvi.h")).unwrap();
    let calls: BTreeSet<&str> = header
        .lines()
        .filter_map(|line| line.strip_prefix("uint32_t suontarvi_"))
        .filter_map(|rest| rest.split_once('(').map(|(name, _)| name))
        // which refuses nothing
        .filter(|name| *name != "version")
        .collect();
    let tried: BTreeSet<&str> = all().into_iter().map(|(call, _)| call).collect();
    assert_eq!(tried, calls);
    let met: BTreeSet<Refusal> = all().into_iter().map(|(_, refusal)| refusal).collect();
    assert_eq!(met.into_iter().collect::<Vec<_>>(), Refusal::ALL);
}

#[test]
fn the_owned_layer_refuses_alike() {
    use suontarvi::{CostGraph, GeneralMatrix, SymmetricMatrix};
    let far = usize::MAX;
    assert_eq!(GeneralMatrix::from_entries(far, []), Err(Refusal::TooManyColumns));
    assert_eq!(SymmetricMatrix::from_columns(far, vec![], vec![], vec![]), Err(Refusal::TooManyColumns));
    assert_eq!(CostGraph::from_entries(4097, []), Err(Refusal::TooManyColumns));
    assert_eq!(CostGraph::from_entries(1, [(0, 1, 0.0)]), Err(Refusal::IndexRange));
    assert_eq!(CostGraph::from_entries(1, [(1, 0, 0.0)]), Err(Refusal::IndexRange));
    assert_eq!(CostGraph::from_entries(1, [(0, 0, 0.0), (0, 0, 1.0)]), Err(Refusal::RowsNotRising));
    let many = (0..lengths::MAX_ENTRIES as u32 + 1).map(|k| (9, k, 0.0));
    assert_eq!(CostGraph::from_entries(1, many), Err(Refusal::TooManyEntries));
    assert_eq!(CostGraph::from_columns(1, vec![], vec![], vec![]), Err(Refusal::SliceLength));
    assert_eq!(GeneralMatrix::from_columns(0, vec![0], vec![], vec![]).map(|matrix| matrix.n()), Ok(0));
}
