//! The interface with native slices, at the full limits of SPECIFICATION 3.2.

use super::expected::{expected, Expected, NUMBERS};
use crate::differs::{answer, same, zero};
use crate::numbers::{contents, doubles, other_length};
use crate::sparse::inputs::Matrix;
use crate::tally::Tally;
use oracle::random::Random;
use suontarvi::{raw, Refusal};

pub const LIMITS: (u32, usize) = (4096, 262_144);

/// What the call is lent beside the graph.
#[derive(Clone, Debug)]
pub struct Lent {
    pub perm: Vec<u32>,
    pub u: Vec<f64>,
    pub v: Vec<f64>,
    pub work: Vec<u32>,
    pub fwork: Vec<f64>,
    pub answer: Vec<u64>,
}

/// One call; what was expected of it.
pub fn compare(graph: &Matrix, before: &Lent, tally: &mut Tally) -> Result<Expected, u32> {
    let lengths_fit = graph.lengths_fit() && before.lengths_fit(graph.n as usize);
    let expected = expected(graph, LIMITS, lengths_fit);
    let (lent_graph, mut after) = (graph.clone(), before.clone());
    let got = after.run(&lent_graph);
    let number = expected.as_ref().err().copied().unwrap_or(0);
    let compared = answer(&got, number)
        .and_then(|()| lent_graph.unchanged(graph))
        .and_then(|()| match &expected {
            Ok(expected) => after.holds(expected),
            Err(_) => after.unchanged(before),
        });
    tally.add(number, compared, &(graph, before));
    expected
}

impl Lent {
    /// Slices of the right lengths, with any contents.
    pub fn new(n: usize, random: &mut Random) -> Lent {
        Lent {
            perm: contents(random, n),
            u: doubles(random, n),
            v: doubles(random, n),
            work: contents(random, 12 * n + 1),
            fwork: doubles(random, 2 * n),
            answer: (0..NUMBERS).map(|_| random.bits()).collect(),
        }
    }

    /// One length becomes another.
    pub fn damage(&mut self, random: &mut Random) {
        match random.below(6) {
            0 => other_length(random, &mut self.perm, 7),
            1 => other_length(random, &mut self.u, 7.0),
            2 => other_length(random, &mut self.v, 7.0),
            3 => other_length(random, &mut self.work, 7),
            4 => other_length(random, &mut self.fwork, 7.0),
            _ => other_length(random, &mut self.answer, 7),
        }
    }

    pub fn lengths_fit(&self, n: usize) -> bool {
        [self.perm.len(), self.u.len(), self.v.len()] == [n; 3]
            && self.work.len() == 12 * n + 1
            && self.fwork.len() == 2 * n
            && self.answer.len() == NUMBERS
    }

    pub fn run(&mut self, graph: &Matrix) -> Result<(), Refusal> {
        raw::hungarian_match(
            graph.n,
            &graph.col_ptr,
            &graph.rows,
            &graph.values,
            &mut self.perm,
            &mut self.u,
            &mut self.v,
            &mut self.work,
            &mut self.fwork,
            &mut self.answer,
        )
    }

    fn holds(&self, expected: &Expected) -> Result<(), String> {
        same("answer", &self.answer, &expected.answer)?;
        same("perm", &self.perm, &expected.perm)?;
        same("u", &self.u, &expected.u)?;
        same("v", &self.v, &expected.v)?;
        zero("work", &self.work)?;
        zero("fwork", &self.fwork)
    }

    fn unchanged(&self, before: &Lent) -> Result<(), String> {
        same("answer", &self.answer, &before.answer)?;
        same("perm", &self.perm, &before.perm)?;
        same("u", &self.u, &before.u)?;
        same("v", &self.v, &before.v)?;
        same("work", &self.work, &before.work)?;
        same("fwork", &self.fwork, &before.fwork)
    }
}
