//! The chooser, by choice. Ours tests the matrix for every choice, the original for none. The MC64 choice has neither
//! `ln` nor `exp` on either side: the original's side is its graph building, its match and its factors without them.

use crate::graphs::{Numbers, SIZES};
use crate::narrow;
use crate::timing::Times;
use oracle::bare_times::{self, Cache};
use oracle::random::Random;
use oracle::{Matched, ScalingStrategy, Symmetric};
use suontarvi::scaling::{scaling, Choice};

pub fn run(times: &mut Times) -> bool {
    let mut random = Random::new(1);
    for (n, reach) in SIZES {
        let (pointers, rows) = random.lower_pattern(n, 2000 * reach / n);
        let count = rows.len();
        let numbers = Numbers::new(count, 0, &mut random);
        let original =
            |values: &[f64]| Symmetric::new(n, pointers.clone(), rows.clone(), values.to_vec());
        let matrix = original(&numbers.values);
        let mut lent = Lent::new(&matrix, &numbers.logs);
        let input = format!("n {n}, {count} entries, random");
        direct(times, &input, &matrix, &mut lent);
        mc64(
            times,
            &input,
            &matrix,
            &original(&numbers.logs_as_values),
            &mut lent,
        );
    }
    true
}

/// The choices that both sides have whole.
fn direct(times: &mut Times, input: &str, matrix: &Symmetric, lent: &mut Lent) {
    for (choice, strategy) in [
        (Choice::InfNorm, ScalingStrategy::InfNorm),
        (Choice::OnePassInfNorm, ScalingStrategy::OnePassInfNorm),
        (Choice::Identity, ScalingStrategy::Identity),
    ] {
        let call = format!("scaling, {choice:?}");
        let rust = || matrix.scaling(&strategy);
        times.add(&call, input, || lent.run(choice), rust);
        if choice == Choice::Identity {
            // little more than the test of the matrix
            let call = format!("{call}, beside validate and the choice");
            let ours = || lent.run(choice);
            times.add(&call, input, ours, || (matrix.validate(), rust()));
        }
        let (factors, _) = rust().expect("the matrix is taken");
        assert_eq!(lent.factors, factors, "the same work is timed");
    }
}

/// MC64; `bare` has logs as its values.
fn mc64(times: &mut Times, input: &str, matrix: &Symmetric, bare: &Symmetric, lent: &mut Lent) {
    let (graph, cmax) = matrix.cost_graph();
    let found = graph.run();
    let matched = Matched {
        perm: found.perm,
        u: found.u,
        v: found.v,
        cmax,
        n_matched: found.n_matched,
    };
    let cache = Cache::from(matched.clone());
    let rust = || {
        let built = bare_times::symmetric_graph(bare);
        (built, graph.run(), cache.symmetric())
    };
    let choice = Choice::Mc64Symmetric;
    times.add(
        &format!("scaling, {choice:?}"),
        input,
        || lent.run(choice),
        rust,
    );
    let (logs, _) = matched.symmetric_logs();
    assert_eq!(lent.factors, logs, "the same work is timed");
}

/// What our call is lent; work is left zero, so that a caller lends the same again.
struct Lent<'a> {
    n: usize,
    col_ptr: Vec<u32>,
    row_idx: Vec<u32>,
    values: &'a [f64],
    logs: &'a [f64],
    factors: Vec<f64>,
    maxima: Vec<f64>,
    graph_ptr: Vec<u32>,
    graph_rows: Vec<u32>,
    cost: Vec<f64>,
    cmax: Vec<f64>,
    graph_work: Vec<u32>,
    perm: Vec<u32>,
    u: Vec<f64>,
    v: Vec<f64>,
    match_work: Vec<u32>,
    distances: Vec<f64>,
    factor_work: Vec<u32>,
}

impl<'a> Lent<'a> {
    fn new(matrix: &'a Symmetric, logs: &'a [f64]) -> Lent<'a> {
        let (n, count) = (matrix.n(), logs.len());
        let doubles = || vec![0.0; n];
        Lent {
            n,
            col_ptr: narrow(matrix.col_ptr()),
            row_idx: narrow(matrix.row_idx()),
            values: matrix.values(),
            logs,
            factors: doubles(),
            maxima: doubles(),
            graph_ptr: vec![0; n + 1],
            graph_rows: vec![0; 2 * count],
            cost: vec![0.0; 2 * count],
            cmax: doubles(),
            graph_work: vec![0; 2 * n + 2 + count],
            perm: vec![0; n],
            u: doubles(),
            v: doubles(),
            match_work: vec![0; 12 * n + 1],
            distances: vec![0.0; 2 * n],
            factor_work: vec![0; n],
        }
    }

    fn run(&mut self, choice: Choice) {
        scaling(
            choice,
            self.n as u32,
            &self.col_ptr,
            &self.row_idx,
            self.values,
            &[],
            self.logs,
            &mut self.factors,
            &mut self.maxima,
            &mut self.graph_ptr,
            &mut self.graph_rows,
            &mut self.cost,
            &mut self.cmax,
            &mut self.graph_work,
            &mut self.perm,
            &mut self.u,
            &mut self.v,
            &mut self.match_work,
            &mut self.distances,
            &mut self.factor_work,
        )
        .expect("the matrix is taken");
    }
}
