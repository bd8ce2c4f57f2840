//! The calls on bytes beside what a host without them writes: the bytes decoded to numbers, the original's call, and
//! its results encoded into lent bytes. The original tests nothing and has five of the seven counts; it allocates,
//! ours is lent no work.

#[path = "../../oracle/compare/src/le_bytes.rs"]
mod le_bytes;

use crate::factors::matched;
use crate::matching::{spread, COSTS};
use crate::rows::Input;
use crate::timing::Times;
use le_bytes::{of_doubles, of_indices, to_doubles, to_indices};
use oracle::bare_times::Cache;
use oracle::random::Random;
use oracle::{Graph, Matched, ScalingInfo};
use suontarvi::{factors, matching, NONE};

/// n, and the entries of each column; the last are the limits of these calls.
const SIZES: [(usize, usize); 2] = [(16, 4), (256, 8)];

/// The matched count and the five counts that both sides have.
const COMMON: usize = 8 * 6;

pub fn run(times: &mut Times) -> bool {
    let mut random = Random::new(1);
    for (n, per_column) in SIZES {
        for (text, bound) in COSTS {
            let graph = GraphBytes::new(&Input::new(&spread(n, per_column, bound, &mut random)));
            let name = format!("n {n}, {} entries, random, {text}", n * per_column);
            graph.compare(times, &name);
        }
        for (text, free) in [("complete", 0), ("a tenth free", 100)] {
            let given = matched(n, free, &mut random);
            let (bytes, name) = (MatchBytes::new(&given), format!("n {n}, {text}"));
            bytes.symmetric(times, &name, &given);
            bytes.unsymmetric(times, &name, &given);
        }
    }
    true
}

/// Indices as the original has them.
fn to_wide(bytes: &[u8]) -> Vec<usize> {
    let wide = |&index: &u32| match index {
        NONE => oracle::NONE,
        index => index as usize,
    };
    to_indices(bytes).iter().map(wide).collect()
}

fn put<const N: usize>(bytes: &mut [u8], numbers: impl Iterator<Item = [u8; N]>) {
    for (place, number) in bytes.chunks_exact_mut(N).zip(numbers) {
        place.copy_from_slice(&number);
    }
}

/// By the rule of these calls, any NaN is written as one.
fn one_nan(number: f64) -> u64 {
    if number.is_nan() {
        0x7FF8000000000000
    } else {
        number.to_bits()
    }
}

fn put_doubles(bytes: &mut [u8], numbers: &[f64]) {
    put(
        bytes,
        numbers.iter().map(|&number| one_nan(number).to_le_bytes()),
    );
}

// ---- the match

struct GraphBytes {
    n: usize,
    col_ptr: Vec<u8>,
    row_idx: Vec<u8>,
    cost: Vec<u8>,
}

/// What both sides write.
struct Found {
    perm: Vec<u8>,
    u: Vec<u8>,
    v: Vec<u8>,
    answer: Vec<u8>,
}

impl GraphBytes {
    fn new(input: &Input) -> GraphBytes {
        GraphBytes {
            n: input.n as usize,
            col_ptr: of_indices(&input.col_ptr),
            row_idx: of_indices(&input.row_idx),
            cost: of_doubles(&input.cost),
        }
    }

    fn compare(&self, times: &mut Times, name: &str) {
        let (mut ours, mut rust) = (Found::new(self.n), Found::new(self.n));
        ours.proved(self);
        rust.original(self);
        assert!(ours.perm == rust.perm && ours.u == rust.u && ours.v == rust.v);
        assert_eq!(ours.answer[..COMMON], rust.answer[..COMMON]);
        times.add(
            "match_bytes",
            name,
            || ours.proved(self),
            || rust.original(self),
        );
    }
}

impl Found {
    fn new(n: usize) -> Found {
        Found {
            perm: vec![0; 4 * n],
            u: vec![0; 8 * n],
            v: vec![0; 8 * n],
            answer: vec![0; 64],
        }
    }

    fn proved(&mut self, graph: &GraphBytes) {
        matching::hungarian_match_bytes(
            graph.n as u32,
            &graph.col_ptr,
            &graph.row_idx,
            &graph.cost,
            &mut self.perm,
            &mut self.u,
            &mut self.v,
            &mut self.answer,
        )
        .expect("the graph is taken");
    }

    fn original(&mut self, graph: &GraphBytes) {
        let (col_ptr, row_idx) = (to_wide(&graph.col_ptr), to_wide(&graph.row_idx));
        let found = Graph::new(graph.n, col_ptr, row_idx, to_doubles(&graph.cost)).run();
        // No row of the original becomes none of ours.
        put(
            &mut self.perm,
            found.perm.iter().map(|&row| (row as u32).to_le_bytes()),
        );
        put_doubles(&mut self.u, &found.u);
        put_doubles(&mut self.v, &found.v);
        let answer = [found.n_matched as u64].into_iter().chain(found.counts);
        put(&mut self.answer, answer.map(u64::to_le_bytes));
    }
}

// ---- log factors

/// A match as bytes.
struct MatchBytes {
    n: usize,
    matched: u32,
    perm: Vec<u8>,
    u: Vec<u8>,
    v: Vec<u8>,
    cmax: Vec<u8>,
}

impl MatchBytes {
    fn new(given: &Matched) -> MatchBytes {
        let perm: Vec<u32> = given.perm.iter().map(|&row| row as u32).collect();
        MatchBytes {
            n: perm.len(),
            matched: given.n_matched as u32,
            perm: of_indices(&perm),
            u: of_doubles(&given.u),
            v: of_doubles(&given.v),
            cmax: of_doubles(&given.cmax),
        }
    }

    /// The match in the original's own form; the unsymmetric factors read no pairs.
    fn decoded(&self, perm: Vec<usize>) -> Cache {
        Cache::from(Matched {
            perm,
            u: to_doubles(&self.u),
            v: to_doubles(&self.v),
            cmax: to_doubles(&self.cmax),
            n_matched: self.matched as usize,
        })
    }

    fn symmetric(&self, times: &mut Times, name: &str, given: &Matched) {
        let lent = || (vec![0; 8 * self.n], vec![0; 4]);
        let ((mut ours, mut our_count), (mut rust, mut rust_count)) = (lent(), lent());
        let mut proved = || {
            factors::log_factors_bytes(
                self.n as u32,
                self.matched,
                &self.perm,
                &self.u,
                &self.v,
                &self.cmax,
                &mut ours,
                &mut our_count,
            )
            .expect("the match is taken")
        };
        let mut original = || {
            let (logs, info) = self.decoded(to_wide(&self.perm)).symmetric();
            put_doubles(&mut rust, &logs);
            let unmatched = match info {
                ScalingInfo::PartialSingular { n_unmatched } => n_unmatched as u32,
                _ => 0,
            };
            rust_count.copy_from_slice(&unmatched.to_le_bytes());
        };
        times.add("log_factors_bytes", name, &mut proved, &mut original);
        assert_eq!(our_count, rust_count, "the same work is timed");
        alike(&ours, &rust, &given.symmetric_logs().0);
    }

    fn unsymmetric(&self, times: &mut Times, name: &str, given: &Matched) {
        let lent = || [vec![0; 8 * self.n], vec![0; 8 * self.n]];
        let ([mut our_rows, mut our_columns], [mut rows, mut columns]) = (lent(), lent());
        let mut proved = || {
            factors::unsymmetric_factors_bytes(
                self.n as u32,
                &self.u,
                &self.v,
                &self.cmax,
                &mut our_rows,
                &mut our_columns,
            )
            .expect("the match is taken")
        };
        let mut original = || {
            let logs = self.decoded(Vec::new()).unsymmetric();
            put_doubles(&mut rows, &logs.0);
            put_doubles(&mut columns, &logs.1);
        };
        times.add(
            "unsymmetric_factors_bytes",
            name,
            &mut proved,
            &mut original,
        );
        let logs = given.unsymmetric_logs();
        alike(&our_rows, &rows, &logs.0);
        alike(&our_columns, &columns, &logs.1);
    }
}

/// Both have the logs, the original with 0 rewritten to 1.
fn alike(ours: &[u8], rust: &[u8], logs: &[f64]) {
    let rewritten = |&log: &f64| if log == 0.0 { 1.0 } else { log };
    let expected: Vec<f64> = logs.iter().map(rewritten).collect();
    assert!(
        ours == of_doubles(logs) && rust == of_doubles(&expected),
        "the same work is timed"
    );
}
