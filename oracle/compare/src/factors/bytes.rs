//! The interface with slices as bytes, low byte first, at its smaller limit.

use super::expected::{symmetric, unsymmetric};
use super::{Call, LogFactors, Match, SideFactors};
use crate::differs::same;
use crate::le_bytes::{of_doubles, of_indices, to_doubles, to_indices};
use crate::numbers::other_length;
use oracle::random::Random;
use suontarvi::{factors, Refusal};

const ROW_LIMIT: u32 = 256;

/// A match as bytes.
#[derive(Clone, Debug)]
struct Given {
    n: u32,
    matched: u32,
    perm: Vec<u8>,
    u: Vec<u8>,
    v: Vec<u8>,
    cmax: Vec<u8>,
}

#[derive(Clone, Debug)]
pub struct Symmetric {
    given: Given,
    factors: Vec<u8>,
    unmatched: Vec<u8>,
}

#[derive(Clone, Debug)]
pub struct Unsymmetric {
    given: Given,
    rows: Vec<u8>,
    columns: Vec<u8>,
}

impl Given {
    fn new(given: &Match) -> Given {
        Given {
            n: given.n,
            matched: given.matched,
            perm: of_indices(&given.perm),
            u: of_doubles(&given.u),
            v: of_doubles(&given.v),
            cmax: of_doubles(&given.cmax),
        }
    }

    /// The match that the bytes hold.
    fn decoded(&self) -> Match {
        Match {
            n: self.n,
            matched: self.matched,
            perm: to_indices(&self.perm),
            u: to_doubles(&self.u),
            v: to_doubles(&self.v),
            cmax: to_doubles(&self.cmax),
        }
    }

    fn duals_fit(&self) -> bool {
        [self.u.len(), self.v.len(), self.cmax.len()] == [8 * self.n as usize; 3]
    }

    fn unchanged(&self, before: &Given) -> Result<(), String> {
        same("perm", &self.perm, &before.perm)?;
        same("u", &self.u, &before.u)?;
        same("v", &self.v, &before.v)?;
        same("cmax", &self.cmax, &before.cmax)
    }
}

/// A length off by a byte or by a number of four or eight.
fn damage(slice: &mut Vec<u8>, random: &mut Random) {
    for _ in 0..[1, 4, 8][random.below(3)] {
        other_length(random, slice, 7);
    }
}

fn any(random: &mut Random, count: usize) -> Vec<u8> {
    (0..count).map(|_| random.bits() as u8).collect()
}

impl Symmetric {
    /// The match, and slices of the right lengths with any contents.
    pub fn new(given: &Match, random: &mut Random) -> Symmetric {
        Symmetric {
            given: Given::new(given),
            factors: any(random, 8 * given.perm.len()),
            unmatched: any(random, 4),
        }
    }

    fn lengths_fit(&self) -> bool {
        let n = self.given.n as usize;
        self.given.perm.len() == 4 * n
            && self.given.duals_fit()
            && [self.factors.len(), self.unmatched.len()] == [8 * n, 4]
    }
}

impl Call for Symmetric {
    type Left = LogFactors;

    fn expected(&self) -> Result<LogFactors, u32> {
        symmetric(&self.given.decoded(), ROW_LIMIT, self.lengths_fit())
    }

    fn run(&mut self) -> Result<(), Refusal> {
        factors::log_factors_bytes(
            self.given.n,
            self.given.matched,
            &self.given.perm,
            &self.given.u,
            &self.given.v,
            &self.given.cmax,
            &mut self.factors,
            &mut self.unmatched,
        )
    }

    fn damage(&mut self, random: &mut Random) {
        let slices = [
            &mut self.given.perm,
            &mut self.given.u,
            &mut self.given.v,
            &mut self.given.cmax,
            &mut self.factors,
            &mut self.unmatched,
        ];
        damage(slices[random.below(6)], random);
    }

    fn inputs_unchanged(&self, before: &Symmetric) -> Result<(), String> {
        self.given.unchanged(&before.given)
    }

    fn holds(&self, left: &LogFactors) -> Result<(), String> {
        same("factors", &self.factors, &of_doubles(&left.factors))?;
        same("unmatched", &self.unmatched, &of_indices(&[left.unmatched]))
    }

    fn unchanged(&self, before: &Symmetric) -> Result<(), String> {
        same("factors", &self.factors, &before.factors)?;
        same("unmatched", &self.unmatched, &before.unmatched)
    }
}

impl Unsymmetric {
    pub fn new(given: &Match, random: &mut Random) -> Unsymmetric {
        let bytes = 8 * given.u.len();
        Unsymmetric {
            given: Given::new(given),
            rows: any(random, bytes),
            columns: any(random, bytes),
        }
    }

    fn lengths_fit(&self) -> bool {
        let n = self.given.n as usize;
        self.given.duals_fit() && [self.rows.len(), self.columns.len()] == [8 * n; 2]
    }
}

impl Call for Unsymmetric {
    type Left = SideFactors;

    fn expected(&self) -> Result<SideFactors, u32> {
        unsymmetric(&self.given.decoded(), ROW_LIMIT, self.lengths_fit())
    }

    fn run(&mut self) -> Result<(), Refusal> {
        factors::unsymmetric_factors_bytes(
            self.given.n,
            &self.given.u,
            &self.given.v,
            &self.given.cmax,
            &mut self.rows,
            &mut self.columns,
        )
    }

    fn damage(&mut self, random: &mut Random) {
        let slices = [
            &mut self.given.u,
            &mut self.given.v,
            &mut self.given.cmax,
            &mut self.rows,
            &mut self.columns,
        ];
        damage(slices[random.below(5)], random);
    }

    fn inputs_unchanged(&self, before: &Unsymmetric) -> Result<(), String> {
        self.given.unchanged(&before.given)
    }

    fn holds(&self, left: &SideFactors) -> Result<(), String> {
        same("row_factors", &self.rows, &of_doubles(&left.rows))?;
        same("column_factors", &self.columns, &of_doubles(&left.columns))
    }

    fn unchanged(&self, before: &Unsymmetric) -> Result<(), String> {
        same("row_factors", &self.rows, &before.rows)?;
        same("column_factors", &self.columns, &before.columns)
    }
}
