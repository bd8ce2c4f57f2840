//! Log factors by the flat rule beside a plain Rust version of the same rules, lent the same slices.

use crate::graphs::{band, Numbers, Pattern, SIZES};
use crate::narrow;
use crate::timing::Times;
use oracle::random::Random;
use suontarvi::{factors, matching::NONE};

/// A matrix with its logs, and a match.
struct Input {
    n: u32,
    matched: u32,
    perm: Vec<u32>,
    duals: [Vec<f64>; 3],
    col_ptr: Vec<u32>,
    row_idx: Vec<u32>,
    values: Vec<f64>,
    logs: Vec<f64>,
}

struct Lent {
    factors: Vec<f64>,
    work: Vec<u32>,
    unmatched: Vec<u32>,
}

pub fn run(times: &mut Times) -> bool {
    let mut random = Random::new(1);
    for (n, reach) in SIZES {
        for (text, free) in [("complete", 0), ("a tenth free", 100)] {
            let pattern = band(n, |column| column..(column + reach).min(n));
            let input = Input::new(&pattern, free, &mut random);
            let (mut ours, mut plain) = (Lent::new(n), Lent::new(n));
            assert_eq!(ours.proved(&input), plain.plain(&input));
            assert!(ours.factors == plain.factors && ours.work == plain.work);
            assert_eq!(ours.unmatched, plain.unmatched);
            let name = format!("n {n}, {} entries, {text}", input.row_idx.len());
            times.add(
                "log_factors_by_rule, flat",
                &name,
                || ours.proved(&input),
                || plain.plain(&input),
            );
        }
    }
    true
}

impl Input {
    /// A random permutation without some of its pairs.
    fn new(pattern: &Pattern, free: usize, random: &mut Random) -> Input {
        let n = pattern.0.len() - 1;
        let mut perm: Vec<u32> = (0..n as u32).collect();
        for column in (1..n).rev() {
            perm.swap(column, random.below(column + 1));
        }
        for row in &mut perm {
            if random.chance(free) {
                *row = NONE;
            }
        }
        let mut numbers = || (0..n).map(|_| random.spread(10)).collect();
        let duals = [numbers(), numbers(), numbers()];
        let Numbers { values, logs, .. } = Numbers::new(pattern.1.len(), 100, random);
        Input {
            n: n as u32,
            matched: perm.iter().filter(|&&row| row != NONE).count() as u32,
            perm,
            duals,
            col_ptr: narrow(&pattern.0),
            row_idx: narrow(&pattern.1),
            values,
            logs,
        }
    }

    /// 4, at each column 5 and 6, then 7, then at each entry 9 and 8, then 10.
    fn fault(&self) -> u32 {
        let last = self.col_ptr[self.n as usize] as usize;
        let falls = self.col_ptr.windows(2).any(|pair| pair[1] < pair[0]);
        if self.col_ptr[0] != 0 || last != self.row_idx.len() || falls {
            return 4;
        }
        for (column, pair) in self.col_ptr.windows(2).enumerate() {
            let rows = &self.row_idx[pair[0] as usize..pair[1] as usize];
            for &row in rows {
                if row >= self.n {
                    return 5;
                }
                if row < column as u32 {
                    return 6;
                }
            }
            if rows.windows(2).any(|pair| pair[1] <= pair[0]) {
                return 7;
            }
        }
        // The sizes are powers of two: no quotient is rounded.
        let limit = (1u64 << 47) as f64 / f64::from(self.n);
        for (value, log) in self.values.iter().zip(&self.logs) {
            if !value.is_finite() {
                return 9;
            }
            // A NaN is not below the limit.
            let fits = log.abs() < limit;
            if *value != 0.0 && !fits {
                return 8;
            }
        }
        let outside = |&row: &u32| row != NONE && row >= self.n;
        match self.matched > self.n || self.perm.iter().any(outside) {
            true => 10,
            false => 0,
        }
    }

    fn lengths_fit(&self) -> bool {
        let (n, count) = (self.n as usize, self.row_idx.len());
        let duals = self.duals.iter().all(|numbers| numbers.len() == n);
        let numbers = [self.values.len(), self.logs.len()] == [count; 2];
        self.perm.len() == n && duals && self.col_ptr.len() == n + 1 && numbers
    }
}

impl Lent {
    fn new(n: usize) -> Lent {
        Lent {
            factors: vec![0.0; n],
            work: vec![0; n],
            unmatched: vec![0],
        }
    }

    fn proved(&mut self, input: &Input) -> u32 {
        let [u, v, cmax] = &input.duals;
        let answer = factors::log_factors_by_rule(
            factors::Rule::Flat,
            input.n,
            input.matched,
            &input.perm,
            u,
            v,
            cmax,
            &input.col_ptr,
            &input.row_idx,
            &input.values,
            &input.logs,
            &mut self.factors,
            &mut self.work,
        );
        match answer {
            Ok(unmatched) => {
                self.unmatched[0] = unmatched;
                0
            }
            Err(refusal) => refusal.number(),
        }
    }

    fn plain(&mut self, input: &Input) -> u32 {
        let n = input.n as usize;
        if n > 4096 {
            return 1;
        }
        if input.row_idx.len() > 131_072 {
            return 2;
        }
        let lent = [self.factors.len(), self.work.len(), self.unmatched.len()] == [n, n, 1];
        if !lent || !input.lengths_fit() {
            return 3;
        }
        let fault = input.fault();
        if fault == 0 {
            self.keep(input);
            self.flatten(input);
            self.unmatched[0] = input.n - input.matched;
        }
        fault
    }

    /// The factors of the matched indices. Their mark is 1; others have 0 until they have a sum, then 2.
    fn keep(&mut self, input: &Input) {
        let [u, v, cmax] = &input.duals;
        self.work.fill(0);
        for &row in input.perm.iter().filter(|&&row| row != NONE) {
            self.work[row as usize] = 1;
        }
        for index in 0..self.work.len() {
            let both = input.perm[index] != NONE && self.work[index] == 1;
            let matched = both && cmax[index].is_finite();
            let argument = (u[index] + v[index] - cmax[index]) / 2.0;
            self.work[index] = matched as u32;
            self.factors[index] = match matched && argument.is_finite() {
                true => argument.clamp(-709.0, 709.0),
                false => 0.0,
            };
        }
    }

    /// Each entry in stored order to its unmatched end.
    fn flatten(&mut self, input: &Input) {
        for column in 0..self.work.len() {
            let (from, to) = (input.col_ptr[column], input.col_ptr[column + 1]);
            for place in from as usize..to as usize {
                let row = input.row_idx[place] as usize;
                let ends = [self.work[row] == 1, self.work[column] == 1];
                if input.values[place] == 0.0 || ends[0] == ends[1] {
                    continue;
                }
                let (flat, other) = match ends[0] {
                    true => (column, row),
                    false => (row, column),
                };
                let sum = input.logs[place] + self.factors[other];
                if self.work[flat] == 0 || sum > self.factors[flat] {
                    self.factors[flat] = sum;
                }
                self.work[flat] = 2;
            }
        }
        for (factor, mark) in self.factors.iter_mut().zip(&mut self.work) {
            if *mark == 2 {
                *factor = (-*factor).clamp(-709.0, 709.0);
            }
            *mark = 0;
        }
    }
}
