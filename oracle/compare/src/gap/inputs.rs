//! Matches with duals whose gap is asked for: the original's of whole and of real costs, and what becomes of them by
//! damage, at digits that fit, nearly fit or do not.

use super::rules::fits;
use crate::check::claims::{self, Claim};
use crate::check::rules::columns;
use crate::matching::expected::expected;
use crate::matching::native::LIMITS;
use crate::numbers::other_length;
use crate::range::{above, last_cost};
use crate::sparse::inputs::Matrix;
use oracle::random::Random;

/// What the call is lent.
#[derive(Clone, Debug)]
pub struct Input {
    pub graph: Matrix,
    pub claim: Claim,
    pub digits: u32,
    pub gap: Vec<u64>,
}

/// Small enough that every complete matching can be tried: mostly n up to 6, now and then 7.
pub const TRIED: u32 = 7;

impl Input {
    /// A graph with costs of one mood, and its match.
    pub fn random(random: &mut Random) -> Input {
        let mut graph = match random.below(3) {
            0 => claims::graph(random),
            _ => small(random),
        };
        costs(&mut graph, random);
        Input::of(graph, random)
    }

    /// The match of a graph by the original, or nonsense; the largest digits that fit.
    pub fn of(graph: Matrix, random: &mut Random) -> Input {
        let found = expected(&graph, LIMITS, graph.lengths_fit()).ok();
        let claim = found.map_or_else(
            || Claim::nonsense(graph.n.min(5000) as usize, random),
            Claim::of,
        );
        let mut input = Input {
            graph,
            claim,
            digits: 0,
            gap: vec![random.bits()],
        };
        input.digits = input.most_digits();
        input
    }

    /// The largest digits at which all costs and duals fit, or 0.
    fn most_digits(&self) -> u32 {
        let numbers = self.graph.values.iter();
        let numbers = numbers.chain(&self.claim.u).chain(&self.claim.v);
        let largest = numbers.fold(0.0, |largest: f64, x| largest.max(x.abs()));
        (0..=50).rev().find(|&d| fits(largest, d)).unwrap_or(0)
    }

    /// One change, at one rule.
    pub fn damage(&mut self, random: &mut Random) {
        match random.below(14) {
            12..=13 => self.other_pairs(random),
            0..=2 => self.claim.damage(&mut self.graph, random),
            3 => other_length(random, &mut self.gap, 7),
            4..=5 => self.duals_by_a_little(random),
            6..=7 => self.dual_at_the_limit(random),
            8 => self.cost_at_the_limit(random),
            9 => self.shifted(random),
            _ => self.other_digits(random),
        }
    }

    fn other_digits(&mut self, random: &mut Random) {
        let most = self.most_digits();
        let others = [0, most / 2, most.saturating_sub(1), most, most + 1];
        self.digits = match random.below(8) {
            at @ 0..=4 => others[at],
            5 => [49, 50, 51, 52][random.below(4)],
            6 => random.below(51) as u32,
            _ => [64, 1074, 1075, u32::MAX][random.below(4)],
        };
    }

    /// Each dual somewhat more or less: by real numbers of a size, by single bits, or by whole numbers.
    fn duals_by_a_little(&mut self, random: &mut Random) {
        let (mood, size) = (random.below(3), [1e-12, 1e-6, 0.1, 10.0][random.below(4)]);
        for dual in self.claim.u.iter_mut().chain(&mut self.claim.v) {
            *dual += match mood {
                0 => (random.unit() - 0.5) * size,
                1 => (random.below(5) as f64 - 2.0) * f64::EPSILON * *dual,
                _ => random.below(5) as f64 - 2.0,
            };
        }
        if random.chance(700) {
            self.digits = self.most_digits();
        }
    }

    /// Another complete matching of a small graph, with the duals that are there.
    fn other_pairs(&mut self, random: &mut Random) {
        let graph = &self.graph;
        let fits = graph.n <= TRIED && self.claim.lengths_fit(graph.n as usize);
        if fits && expected(graph, LIMITS, graph.lengths_fit()).is_ok() {
            let columns: Vec<Vec<(u32, usize)>> = columns(graph).collect();
            let mut perm = Vec::new();
            if chosen(&columns, &mut perm, random) {
                self.claim.perm = perm;
            }
        }
    }

    /// u + t and v - t, rounded.
    fn shifted(&mut self, random: &mut Random) {
        let size = [1.0, 1e3, 1e9, 2f64.powi(48), 2f64.powi(49)][random.below(5)];
        let t = size * (2.0 * random.unit() - 1.0);
        self.claim.u.iter_mut().for_each(|x| *x += t);
        self.claim.v.iter_mut().for_each(|x| *x -= t);
        self.digits = self.most_digits();
    }

    /// The most steps that a number may have, and those beside it.
    fn ends(&self) -> [f64; 6] {
        let limit = 2f64.powi(49 - self.digits.min(60) as i32);
        let below = f64::from_bits(limit.to_bits() - 1);
        [limit, above(limit), below, 2.0 * limit, 5e-324, limit / 2.0]
    }

    fn dual_at_the_limit(&mut self, random: &mut Random) {
        let ends = self.ends();
        let list = match random.chance(500) {
            true => &mut self.claim.u,
            false => &mut self.claim.v,
        };
        if !list.is_empty() {
            let at = random.below(list.len());
            let sign = [1.0, -1.0][random.below(2)];
            list[at] = sign * ends[random.below(ends.len())];
        }
    }

    /// The digits are such that the limit is a cost.
    fn cost_at_the_limit(&mut self, random: &mut Random) {
        let last = last_cost(self.graph.n.clamp(1, 4096));
        let least = (0..=50).find(|&digits| 2f64.powi(49 - digits as i32) < last);
        self.digits = self.digits.clamp(least.unwrap_or(50), 50);
        let ends = self.ends();
        if !self.graph.values.is_empty() {
            let at = random.below(self.graph.values.len());
            self.graph.values[at] = ends[random.below(ends.len())];
        }
    }
}

/// Rows for the columns from the first without one on, each tried from a random entry on; whether there are any.
fn chosen(columns: &[Vec<(u32, usize)>], perm: &mut Vec<u32>, random: &mut Random) -> bool {
    let Some(column) = columns.get(perm.len()) else {
        return true;
    };
    let first = random.below(column.len().max(1));
    for at in 0..column.len() {
        let (row, _) = column[(first + at) % column.len()];
        if !perm.contains(&row) {
            perm.push(row);
            if chosen(columns, perm, random) {
                return true;
            }
            perm.pop();
        }
    }
    false
}

/// A graph with a complete matching, of n up to 6, now and then 7.
fn small(random: &mut Random) -> Matrix {
    let n = match random.below(50) {
        0 => TRIED as usize,
        _ => random.below(TRIED as usize),
    };
    let mut perm: Vec<usize> = (0..n).collect();
    for at in (1..n).rev() {
        perm.swap(at, random.below(at + 1));
    }
    let per_mille = [200, 500, 800, 1000][random.below(4)];
    let (mut col_ptr, mut rows) = (vec![0], Vec::new());
    for pair in perm {
        let kept = (0..n).filter(|&row| row == pair || random.chance(per_mille));
        rows.extend(kept.map(|row| row as u32));
        col_ptr.push(rows.len() as u32);
    }
    Matrix {
        n: n as u32,
        col_ptr,
        values: vec![0.0; rows.len()],
        rows,
    }
}

/// Costs of one mood: as they are, logarithms, any real ones, small ones, halves, or nearly equal ones.
fn costs(graph: &mut Matrix, random: &mut Random) {
    let last = last_cost(graph.n.clamp(1, 4096));
    let mood = random.below(7);
    for cost in &mut graph.values {
        *cost = match mood {
            0 => *cost,
            1 => 30.0 - random.spread(20).abs().ln().clamp(-30.0, 30.0),
            2 => random.unit() * 10.0,
            3 => random.unit() * last,
            4 => random.spread(60).abs().min(last),
            5 => random.below(9) as f64 / 2.0,
            _ => 1.0 + random.below(4) as f64 * f64::EPSILON,
        };
    }
}
