//! Matches to be checked: the original's, damaged in every way, and nonsense.

use crate::matching::expected::{expected, Expected};
use crate::matching::graphs;
use crate::matching::native::LIMITS;
use crate::numbers::{contents, doubles, near, other_length};
use crate::range::{above, last_whole_cost};
use crate::sparse::inputs::Matrix;
use oracle::random::Random;
use suontarvi::matching::NONE;

const LIMIT: f64 = (1u64 << 50) as f64;

/// A pairing with its duals.
#[derive(Clone, Debug)]
pub struct Claim {
    pub perm: Vec<u32>,
    pub u: Vec<f64>,
    pub v: Vec<f64>,
}

/// Mostly a graph with a complete matching and whole costs, of n up to 12, now and then up to 60; else any.
pub fn graph(random: &mut Random) -> Matrix {
    if random.chance(150) {
        return graphs::random(random);
    }
    let n = match random.below(50) {
        0 => random.below(61),
        _ => random.below(13),
    };
    let mut perm: Vec<usize> = (0..n).collect();
    for at in (1..n).rev() {
        perm.swap(at, random.below(at + 1));
    }
    let per_mille = [0, 100, 300, 600, 1000][random.below(5)];
    let bound = [1, 2, 10, 1000, last_whole_cost(n as u32) + 1][random.below(5)];
    let (mut col_ptr, mut rows, mut values) = (vec![0], Vec::new(), Vec::new());
    for pair in perm {
        for row in 0..n {
            if row == pair || random.chance(per_mille) {
                rows.push(row as u32);
                values.push((random.bits() % bound) as f64);
            }
        }
        col_ptr.push(rows.len() as u32);
    }
    Matrix {
        n: n as u32,
        col_ptr,
        rows,
        values,
    }
}

impl Claim {
    pub fn of(found: Expected) -> Claim {
        Claim {
            perm: found.perm,
            u: found.u,
            v: found.v,
        }
    }

    pub fn nonsense(n: usize, random: &mut Random) -> Claim {
        let mut perm = contents(random, n);
        if n > 0 && random.chance(500) {
            perm = (0..n).map(|_| random.below(n) as u32).collect();
        }
        Claim {
            perm,
            u: doubles(random, n),
            v: doubles(random, n),
        }
    }

    pub fn is_complete(&self) -> bool {
        !self.perm.contains(&NONE)
    }

    pub fn lengths_fit(&self, n: usize) -> bool {
        [self.perm.len(), self.u.len(), self.v.len()] == [n; 3]
    }

    /// One change, at one rule.
    pub fn damage(&mut self, graph: &mut Matrix, random: &mut Random) {
        match random.below(16) {
            0 => self.length(random),
            1 => graphs::damage(graph, random),
            2 => *self = Claim::nonsense(self.perm.len(), random),
            3 => self.signs(),
            4..=6 => self.shift(random),
            7 => self.other(graph),
            8..=9 => cost(&mut graph.values, random),
            10..=12 => self.pair(random),
            _ => self.dual(random),
        }
    }

    fn length(&mut self, random: &mut Random) {
        match random.below(3) {
            0 => other_length(random, &mut self.perm, 7),
            1 => other_length(random, &mut self.u, 7.0),
            _ => other_length(random, &mut self.v, 7.0),
        }
    }

    /// Every zero becomes -0.0.
    fn signs(&mut self) {
        let zeros = self.u.iter_mut().chain(&mut self.v);
        zeros.filter(|x| **x == 0.0).for_each(|x| *x = -0.0);
    }

    /// All duals are shifted so that sums stay right: by a whole number, a half, up to the limit or one beyond it.
    fn shift(&mut self, random: &mut Random) {
        let largest = |list: &[f64]| list.iter().copied().fold(0.0, f64::max);
        let least = |list: &[f64]| list.iter().copied().fold(0.0, f64::min);
        let t = match random.below(8) {
            0 => random.below(9) as f64 - 4.0,
            1 => (random.bits() % (1 << 49)) as f64,
            2 => 0.5,
            3 => LIMIT - largest(&self.u),
            4 => LIMIT - largest(&self.u) + 1.0,
            5 => least(&self.v) + LIMIT,
            6 => least(&self.v) + LIMIT + 1.0,
            _ => largest(&self.v) - LIMIT - random.below(2) as f64,
        };
        self.u.iter_mut().for_each(|x| *x += t);
        self.v.iter_mut().for_each(|x| *x -= t);
    }

    /// The match of the graph with its columns in the other order.
    fn other(&mut self, graph: &Matrix) {
        let lengths_fit = graph.lengths_fit();
        if expected(graph, LIMITS, lengths_fit).is_err() {
            return;
        }
        let mut turned = Matrix {
            n: graph.n,
            col_ptr: vec![0],
            rows: Vec::new(),
            values: Vec::new(),
        };
        for pair in graph.col_ptr.windows(2).rev() {
            let stretch = pair[0] as usize..pair[1] as usize;
            turned.rows.extend(&graph.rows[stretch.clone()]);
            turned.values.extend(&graph.values[stretch]);
            turned.col_ptr.push(turned.rows.len() as u32);
        }
        if let Ok(found) = expected(&turned, LIMITS, true) {
            *self = Claim::of(found);
            self.perm.reverse();
            self.v.reverse();
        }
    }

    /// Pairs swapped, a gap, a repeat, an index out of range or nearly so.
    fn pair(&mut self, random: &mut Random) {
        let n = self.perm.len();
        if n == 0 {
            return;
        }
        let (at, other) = (random.below(n), random.below(n));
        match random.below(4) {
            0 => self.perm.swap(at, other),
            1 => self.perm[at] = NONE,
            2 => self.perm[at] = self.perm[other],
            _ => self.perm[at] = near(random, n as u32),
        }
    }

    /// One dual becomes another.
    fn dual(&mut self, random: &mut Random) {
        let list = match random.chance(500) {
            true => &mut self.u,
            false => &mut self.v,
        };
        if list.is_empty() {
            return;
        }
        let at = random.below(list.len());
        let dual = &mut list[at];
        let others = [
            *dual + 1.0,
            *dual - 1.0,
            *dual + 0.5,
            *dual - 0.5,
            -*dual,
            LIMIT,
            LIMIT + 1.0,
            -LIMIT,
            -LIMIT - 1.0,
            f64::NAN,
            f64::INFINITY,
            f64::NEG_INFINITY,
            -5e-324,
            1e300,
        ];
        *dual = others[random.below(others.len())];
    }
}

/// One cost becomes another: one off, a half more, the next double.
fn cost(values: &mut [f64], random: &mut Random) {
    if values.is_empty() {
        return;
    }
    let cost = &mut values[random.below(values.len())];
    let others = [
        *cost + 1.0,
        (*cost - 1.0).max(0.0),
        *cost + 0.5,
        above(*cost),
        -0.0,
        5e-324,
    ];
    *cost = others[random.below(others.len())];
}
