//! The check of a match beside a plain Rust version of the same rules, and beside our match of the same graph.

use crate::matching::{spread, LARGE};
use crate::rows::Input;
use crate::timing::Times;
use oracle::random::Random;
use suontarvi::matching;

/// n, and the entries of each column.
pub const SIZES: [(usize, usize); 3] = [(16, 4), (256, 8), (LARGE, 64)];

const DUAL_LIMIT: f64 = (1u64 << 50) as f64;

/// A match of the graph, by our own call.
pub struct Found {
    pub perm: Vec<u32>,
    pub u: Vec<f64>,
    pub v: Vec<f64>,
    work: Vec<u32>,
    fwork: Vec<f64>,
}

pub fn run(times: &mut Times) -> bool {
    let mut random = Random::new(1);
    for (n, per_column) in SIZES {
        let (input, mut found) = complete(n, per_column, 1.0, &mut random);
        assert_eq!((proved(&input, &found), plain(&input, &found)), (0, 0));
        let name = format!("n {n}, {} entries", input.row_idx.len());
        let (ours, theirs) = (|| proved(&input, &found), || plain(&input, &found));
        times.add("check_match", &name, ours, theirs);
        let again = found.take();
        let (ours, matched) = (|| proved(&input, &again), || found.fill(&input));
        times.add("check_match, beside our match", &name, ours, matched);
    }
    true
}

/// A random graph that has a complete match, with whole costs times a unit, and the match.
pub fn complete(n: usize, per_column: usize, unit: f64, random: &mut Random) -> (Input, Found) {
    loop {
        let mut input = Input::new(&spread(n, per_column, 1 << 36, random));
        input.cost.iter_mut().for_each(|cost| *cost *= unit);
        let mut found = Found::new(n);
        if found.fill(&input) == n as u64 {
            return (input, found);
        }
    }
}

impl Found {
    pub fn new(n: usize) -> Found {
        Found {
            perm: vec![0; n],
            u: vec![0.0; n],
            v: vec![0.0; n],
            work: vec![0; 12 * n + 1],
            fwork: vec![0.0; 2 * n],
        }
    }

    /// The match, leaving room for it to be found again.
    pub fn take(&mut self) -> Found {
        let again = Found::new(self.perm.len());
        std::mem::replace(self, again)
    }

    /// The matched count.
    pub fn fill(&mut self, input: &Input) -> u64 {
        let called = matching::hungarian_match(
            input.n,
            &input.col_ptr,
            &input.row_idx,
            &input.cost,
            &mut self.perm,
            &mut self.u,
            &mut self.v,
            &mut self.work,
            &mut self.fwork,
        );
        called.expect("the graph is taken").matched.into()
    }
}

fn proved(input: &Input, found: &Found) -> u32 {
    let answer = matching::check_match(
        input.n,
        &input.col_ptr,
        &input.row_idx,
        &input.cost,
        &found.perm,
        &found.u,
        &found.v,
    );
    answer.map_or_else(u32::from, |()| 0)
}

fn plain(input: &Input, found: &Found) -> u32 {
    let (n, count) = (input.n as usize, input.row_idx.len());
    if n > LARGE {
        return 1;
    }
    if count > 262_144 {
        return 2;
    }
    let graph = input.col_ptr.len() == n + 1 && input.cost.len() == count;
    if !graph || [found.perm.len(), found.u.len(), found.v.len()] != [n; 3] {
        return 3;
    }
    let fault = input.fault();
    if fault != 0 {
        return fault;
    }
    if input.cost.iter().any(|cost| cost.fract() != 0.0) {
        return 8;
    }
    if !pairs_fit(input, &found.perm) {
        return 30;
    }
    let dual = |x: &f64| x.abs() <= DUAL_LIMIT && x.fract() == 0.0;
    if !found.u.iter().all(dual) || !found.v.iter().all(dual) {
        return 31;
    }
    sums(input, found)
}

/// Each row once, and by an entry.
pub fn pairs_fit(input: &Input, perm: &[u32]) -> bool {
    let mut seen = vec![false; perm.len()];
    for (pair, &row) in input.col_ptr.windows(2).zip(perm) {
        let column = &input.row_idx[pair[0] as usize..pair[1] as usize];
        if row >= input.n || seen[row as usize] || !column.contains(&row) {
            return false;
        }
        seen[row as usize] = true;
    }
    true
}

/// 31 for a sum above a cost, else 32 for a pair's below it.
fn sums(input: &Input, found: &Found) -> u32 {
    let mut loose = false;
    for (column, pair) in input.col_ptr.windows(2).enumerate() {
        for place in pair[0] as usize..pair[1] as usize {
            let row = input.row_idx[place];
            let sum = found.u[row as usize] + found.v[column];
            if sum > input.cost[place] {
                return 31;
            }
            loose |= row == found.perm[column] && sum < input.cost[place];
        }
    }
    match loose {
        true => 32,
        false => 0,
    }
}
