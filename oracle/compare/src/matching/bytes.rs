//! The interface with slices as bytes, low byte first, at its smaller limits.

use super::expected::{expected, Expected, NUMBERS};
use crate::differs::{answer, same};
use crate::le_bytes::{of_doubles, of_indices, to_doubles, to_indices};
use crate::numbers::other_length;
use crate::sparse::inputs::Matrix;
use crate::tally::Tally;
use oracle::random::Random;
use suontarvi::{matching, Refusal};

const LIMITS: (u32, usize) = (256, 2048);

/// The arguments of a call.
#[derive(Clone, Debug)]
pub struct Call {
    n: u32,
    col_ptr: Vec<u8>,
    row_idx: Vec<u8>,
    cost: Vec<u8>,
    perm: Vec<u8>,
    u: Vec<u8>,
    v: Vec<u8>,
    pub answer: Vec<u8>,
}

/// Calls with row bytes at the limit of ties and a few more: ties are counted before lengths are tested.
pub fn around_limit(random: &mut Random) -> Vec<Call> {
    let graph = Matrix::band(LIMITS.0, 9, LIMITS.1, random);
    let mut calls = Vec::new();
    for more in 0..9 {
        let mut call = Call::new(&graph, random);
        call.row_idx.resize(call.row_idx.len() + more, 0);
        calls.push(call);
    }
    calls
}

impl Call {
    /// The graph, and lent slices that fit its pointers, with any contents.
    pub fn new(graph: &Matrix, random: &mut Random) -> Call {
        let n = graph.col_ptr.len().saturating_sub(1);
        let mut lent = |count: usize| (0..count).map(|_| random.bits() as u8).collect();
        Call {
            n: graph.n,
            col_ptr: of_indices(&graph.col_ptr),
            row_idx: of_indices(&graph.rows),
            cost: of_doubles(&graph.values),
            perm: lent(4 * n),
            u: lent(8 * n),
            v: lent(8 * n),
            answer: lent(8 * NUMBERS),
        }
    }

    /// One length becomes another, by a byte or by a number of four or eight.
    pub fn damage(&mut self, random: &mut Random) {
        let slices = [
            &mut self.col_ptr,
            &mut self.row_idx,
            &mut self.cost,
            &mut self.perm,
            &mut self.u,
            &mut self.v,
            &mut self.answer,
        ];
        let slice = &mut *slices[random.below(7)];
        for _ in 0..[1, 4, 8][random.below(3)] {
            other_length(random, slice, 7);
        }
    }

    /// One call.
    pub fn compare(&self, tally: &mut Tally) {
        let expected = expected(&self.graph(), LIMITS, self.lengths_fit());
        let mut after = self.clone();
        let got = after.run();
        let number = expected.as_ref().err().copied().unwrap_or(0);
        let compared = answer(&got, number)
            .and_then(|()| after.inputs_unchanged(self))
            .and_then(|()| match &expected {
                Ok(expected) => after.holds(expected),
                Err(_) => after.unchanged(self),
            });
        tally.add(number, compared, self);
    }

    /// The graph that the bytes hold.
    fn graph(&self) -> Matrix {
        Matrix {
            n: self.n,
            col_ptr: to_indices(&self.col_ptr),
            rows: to_indices(&self.row_idx),
            values: to_doubles(&self.cost),
        }
    }

    fn lengths_fit(&self) -> bool {
        let n = self.n as usize;
        self.row_idx.len() % 4 == 0
            && self.col_ptr.len() == 4 * (n + 1)
            && self.cost.len() == 2 * self.row_idx.len()
            && [self.perm.len(), self.u.len(), self.v.len()] == [4 * n, 8 * n, 8 * n]
            && self.answer.len() == 8 * NUMBERS
    }

    fn run(&mut self) -> Result<(), Refusal> {
        matching::hungarian_match_bytes(
            self.n,
            &self.col_ptr,
            &self.row_idx,
            &self.cost,
            &mut self.perm,
            &mut self.u,
            &mut self.v,
            &mut self.answer,
        )
    }

    fn inputs_unchanged(&self, before: &Call) -> Result<(), String> {
        same("col_ptr", &self.col_ptr, &before.col_ptr)?;
        same("row_idx", &self.row_idx, &before.row_idx)?;
        same("cost", &self.cost, &before.cost)
    }

    fn holds(&self, expected: &Expected) -> Result<(), String> {
        let counts: Vec<u8> = expected
            .answer
            .iter()
            .flat_map(|c| c.to_le_bytes())
            .collect();
        same("answer", &self.answer, &counts)?;
        same("perm", &self.perm, &of_indices(&expected.perm))?;
        same("u", &self.u, &of_doubles(&expected.u))?;
        same("v", &self.v, &of_doubles(&expected.v))
    }

    fn unchanged(&self, before: &Call) -> Result<(), String> {
        same("answer", &self.answer, &before.answer)?;
        same("perm", &self.perm, &before.perm)?;
        same("u", &self.u, &before.u)?;
        same("v", &self.v, &before.v)
    }
}
