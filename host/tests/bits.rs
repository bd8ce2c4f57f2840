//! Bits that must be so: NaNs of sums, places that must stay, work that must be zero, sheets that carry every bit.

use suontarvi::{Exponents, GeneralMatrix, Matching, NONE, Refusal, graphs, lengths, raw, sparse};

/// A NaN with bits of its own.
const MARK: u64 = 0x7FF4_DEAD_BEEF_0001;
/// The NaN of a sum.
const SUM: u64 = 0x7FF8_0000_0000_0000;

fn mark() -> f64 {
    f64::from_bits(MARK)
}

fn bits(of: &[f64]) -> Vec<u64> {
    of.iter().map(|value| value.to_bits()).collect()
}

#[test]
fn sums_of_triplets() {
    let vals = [f64::INFINITY, f64::NEG_INFINITY, mark(), -0.0, f64::from_bits(0xFFF8_0000_0000_0007)];
    let (rows, cols) = ([0, 0, 1, 2, 2], [0, 0, 0, 0, 1]);
    for assemble in [sparse::triplets_general, sparse::triplets_symmetric] {
        let (mut col_ptr, mut row_idx, mut values) = ([9; 4], [9; 5], [mark(); 5]);
        let mut work = [9; lengths::triplets_work(3, 5)];
        let kept = assemble(3, &rows, &cols, &vals, &mut col_ptr, &mut row_idx, &mut values, &mut work);
        assert_eq!((kept, col_ptr, row_idx), (Ok(4), [0, 3, 4, 4], [0, 1, 2, 2, 9]));
        // inf - inf, a signalling NaN, 0.0 + -0.0, a negative NaN; past the kept count nothing is written
        assert_eq!(bits(&values), [SUM, SUM, 0, SUM, MARK]);
        assert_eq!(work, [0; 13]);
    }
}

#[test]
fn places_past_a_graph_stay() {
    let (mut ptr, mut rows, mut cost, mut cmax) = ([9; 2], [9; 2], [mark(); 2], [mark()]);
    let mut work = [9; lengths::graph_work(1, 1)];
    let kept =
        graphs::symmetric_graph(1, &[0, 1], &[0], &[2.0], &[0.5], &mut ptr, &mut rows, &mut cost, &mut cmax, &mut work);
    assert_eq!((kept, ptr, rows, bits(&cost)), (Ok(1), [0, 1], [0, 9], vec![0, MARK]));
    assert_eq!((cmax, work), ([0.5], [0; 5]));
}

#[test]
fn a_refused_call_leaves_every_bit() {
    let (mut col_ptr, mut row_idx, mut values, mut work) = ([9; 2], [9; 1], [mark()], [9; 5]);
    let refused = sparse::triplets_general(1, &[1], &[0], &[1.0], &mut col_ptr, &mut row_idx, &mut values, &mut work);
    assert_eq!(refused, Err(Refusal::IndexRange));
    assert_eq!((col_ptr, row_idx, bits(&values), work), ([9; 2], [9; 1], vec![MARK], [9; 5]));
    let (mut perm, mut u, mut v) = ([9], [mark()], [mark()]);
    let (mut work, mut fwork, mut answer) = ([9; 13], [mark(); 2], [9; 8]);
    let refused =
        raw::hungarian_match(1, &[0, 1], &[0], &[-1.0], &mut perm, &mut u, &mut v, &mut work, &mut fwork, &mut answer);
    assert_eq!(refused, Err(Refusal::CostRange));
    assert_eq!((perm, bits(&u), bits(&v), work), ([9], vec![MARK], vec![MARK], [9; 13]));
    assert_eq!((bits(&fwork), answer), (vec![MARK; 2], [9; 8]));
}

#[test]
fn sheets_carry_every_bit() {
    let sent = Matching {
        matched: 1,
        perm: vec![2, NONE, NONE],
        u: vec![mark(), -0.0, 0.0],
        v: vec![f64::from_bits(1), 0.0, f64::NEG_INFINITY],
        cmax: vec![0.0, f64::from_bits(0xFFFF_FFFF_FFFF_FFFF), 0.0],
        counts: None,
    };
    let sheet = sent.to_sheet().unwrap();
    for read in [Matching::from_sheet(&sheet), Matching::from_canonical_sheet(&sheet)] {
        let read = read.unwrap();
        assert_eq!((read.matched, &read.perm), (1, &sent.perm));
        assert_eq!((bits(&read.u), bits(&read.v)), (bits(&sent.u), bits(&sent.v)));
        assert_eq!(bits(&read.cmax), bits(&sent.cmax));
    }
}

#[test]
fn scaling_back_brings_every_bit() {
    let before = [(0, 0, 0.1), (1, 0, -0.0), (0, 1, -3.0e100), (1, 1, 7.0e-100)];
    let before = GeneralMatrix::from_columns(
        2,
        vec![0, 2, 4],
        before.iter().map(|entry| entry.0).collect(),
        before.iter().map(|entry| entry.2).collect(),
    );
    let mut matrix = before.clone().unwrap();
    let turned = |by: &Exponents| Exponents {
        rows: by.rows.iter().map(|exponent| -exponent).collect(),
        columns: by.columns.iter().map(|exponent| -exponent).collect(),
    };
    let by = Exponents { rows: vec![5, -7], columns: vec![-100, 90] };
    matrix.scale_by(&by).unwrap();
    assert_eq!(matrix.values()[0], 0.1 * 2f64.powi(-95));
    matrix.scale_by(&turned(&by)).unwrap();
    assert_eq!(bits(matrix.values()), bits(before.unwrap().values()));
    // refused at the last value: the others stay
    let far = Exponents { rows: vec![0, 0], columns: vec![0, -2000] };
    assert_eq!(matrix.scale_by(&far), Err(Refusal::ValueNotNormal));
    assert_eq!(matrix.values()[0], 0.1);
}
