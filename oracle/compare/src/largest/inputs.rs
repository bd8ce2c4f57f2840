//! Matchings of random patterns: ours, others that are largest, some that are not, nonsense; and damage at each rule.

use super::rules;
use crate::check::rules::columns;
use crate::matching::graphs;
use crate::numbers::{contents, near, other_length};
use crate::sparse::inputs::Matrix;
use oracle::random::Random;
use suontarvi::matching::NONE;
use suontarvi::CostGraph;

/// What the call is lent; the graph without its costs.
#[derive(Clone, Debug)]
pub struct Input {
    pub graph: Matrix,
    pub perm: Vec<u32>,
    pub columns: Vec<u32>,
    pub rows: Vec<u32>,
    pub matched: Vec<u32>,
    /// Whether our own match made it.
    pub is_ours: bool,
}

impl Input {
    pub fn random(random: &mut Random) -> Input {
        let mut graph = graphs::random(random);
        if random.chance(300) {
            let n = random.below(super::TRIED as usize + 1);
            graph = graphs::sized(n, random);
        }
        Input::of(graph, random)
    }

    /// A matching of the graph, of one mood; nonsense if the graph is not one.
    pub fn of(graph: Matrix, random: &mut Random) -> Input {
        let n = graph.n as usize;
        let fits = rules::pattern(&graph, true) == 0;
        let (mood, mut is_ours) = (random.below(12), false);
        let perm = match mood {
            _ if !fits => nonsense(n, random),
            0..=3 => {
                is_ours = true;
                ours(&graph)
            }
            4..=5 => grown(&graph, rules::largest(&graph), random),
            6..=7 => some_of(rules::largest(&graph), random),
            8..=9 => greedy(&graph, random),
            10 => vec![NONE; n],
            _ => nonsense(n, random),
        };
        Input {
            graph,
            perm,
            columns: contents(random, n),
            rows: contents(random, n),
            matched: contents(random, 1),
            is_ours,
        }
    }

    /// One change, at one rule.
    pub fn damage(&mut self, random: &mut Random) {
        match random.below(24) {
            0 => other_length(random, &mut self.perm, 0),
            1 => other_length(random, &mut self.columns, 7),
            2 => other_length(random, &mut self.rows, 7),
            3 => other_length(random, &mut self.matched, 7),
            4..=9 => self.graph.damage(random),
            _ => self.pair(random),
        }
    }

    /// Pairs swapped, a gap, a repeat, an index out of range or nearly so.
    fn pair(&mut self, random: &mut Random) {
        let n = self.perm.len();
        if n == 0 {
            return;
        }
        let (at, other) = (random.below(n), random.below(n));
        match random.below(6) {
            0 => self.perm.swap(at, other),
            1..=2 => self.perm[at] = NONE,
            3 => self.perm[at] = self.perm[other],
            4 => self.perm[at] = NONE - 1,
            _ => self.perm[at] = near(random, n as u32),
        }
    }
}

/// The match by the library of a graph that it takes.
fn ours(graph: &Matrix) -> Vec<u32> {
    let Matrix {
        n, col_ptr, rows, ..
    } = graph;
    let costs = vec![0.0; rows.len()];
    let graph = CostGraph::from_columns(*n as usize, col_ptr.clone(), rows.clone(), costs);
    graph.expect("the pattern was tested").matching().perm
}

fn nonsense(n: usize, random: &mut Random) -> Vec<u32> {
    match n {
        0 => Vec::new(),
        _ if random.chance(500) => (0..n).map(|_| random.below(n) as u32).collect(),
        _ => contents(random, n),
    }
}

/// Each pair with a chance of nine in ten, or all but one.
fn some_of(mut perm: Vec<u32>, random: &mut Random) -> Vec<u32> {
    if !perm.is_empty() && random.chance(500) {
        let at = random.below(perm.len());
        perm[at] = NONE;
        return perm;
    }
    let some = |row: u32| if random.chance(900) { row } else { NONE };
    perm.into_iter().map(some).collect()
}

/// Columns in any order, each with its first free row: no column can be added, but it need not be largest.
fn greedy(graph: &Matrix, random: &mut Random) -> Vec<u32> {
    let entries: Vec<Vec<(u32, usize)>> = columns(graph).collect();
    let n = entries.len();
    let (mut perm, mut taken) = (vec![NONE; n], vec![false; n]);
    for _ in 0..2 * n {
        let column = random.below(n);
        if perm[column] == NONE {
            let free = entries[column]
                .iter()
                .find(|(row, _)| !taken[*row as usize]);
            if let Some(&(row, _)) = free {
                perm[column] = row;
                taken[row as usize] = true;
            }
        }
    }
    perm
}

/// The same number of pairs: now and then a column without a row takes one from another column.
fn grown(graph: &Matrix, mut perm: Vec<u32>, random: &mut Random) -> Vec<u32> {
    let entries: Vec<Vec<(u32, usize)>> = columns(graph).collect();
    for _ in 0..random.below(2 * perm.len().min(20) + 1) {
        let column = random.below(perm.len());
        if perm[column] == NONE && !entries[column].is_empty() {
            let (row, _) = entries[column][random.below(entries[column].len())];
            let loses = perm.iter().position(|&other| other == row);
            if let Some(other) = loses {
                perm[other] = NONE;
            }
            perm[column] = row;
        }
    }
    perm
}
