//! The interface with native slices.

use super::expected::{symmetric, unsymmetric};
use super::{Call, LogFactors, Match, SideFactors};
use crate::differs::{same, zero};
use crate::numbers::{contents, doubles, other_length};
use crate::sparse::ROW_LIMIT;
use oracle::random::Random;
use suontarvi::{factors, raw, Refusal};

#[derive(Clone, Debug)]
pub struct Symmetric {
    pub given: Match,
    pub factors: Vec<f64>,
    pub work: Vec<u32>,
    pub unmatched: Vec<u32>,
}

#[derive(Clone, Debug)]
pub struct Unsymmetric {
    pub given: Match,
    pub rows: Vec<f64>,
    pub columns: Vec<f64>,
}

impl Symmetric {
    /// The match, and slices of the right lengths with any contents.
    pub fn new(given: &Match, random: &mut Random) -> Symmetric {
        let n = given.perm.len();
        Symmetric {
            given: given.clone(),
            factors: doubles(random, n),
            work: contents(random, n),
            unmatched: contents(random, 1),
        }
    }

    fn lengths_fit(&self) -> bool {
        let n = self.given.n as usize;
        self.given.perm.len() == n
            && self.given.duals_fit()
            && [self.factors.len(), self.work.len(), self.unmatched.len()] == [n, n, 1]
    }
}

impl Match {
    fn duals_fit(&self) -> bool {
        [self.u.len(), self.v.len(), self.cmax.len()] == [self.n as usize; 3]
    }
}

impl Call for Symmetric {
    type Left = LogFactors;

    fn expected(&self) -> Result<LogFactors, u32> {
        symmetric(&self.given, ROW_LIMIT, self.lengths_fit())
    }

    fn run(&mut self) -> Result<(), Refusal> {
        raw::log_factors(
            self.given.n,
            self.given.matched,
            &self.given.perm,
            &self.given.u,
            &self.given.v,
            &self.given.cmax,
            &mut self.factors,
            &mut self.work,
            &mut self.unmatched,
        )
    }

    fn damage(&mut self, random: &mut Random) {
        match random.below(3) {
            0 => other_length(random, &mut self.factors, 7.0),
            1 => other_length(random, &mut self.work, 7),
            _ => other_length(random, &mut self.unmatched, 7),
        }
    }

    fn inputs_unchanged(&self, before: &Symmetric) -> Result<(), String> {
        self.given.unchanged(&before.given)
    }

    fn holds(&self, left: &LogFactors) -> Result<(), String> {
        same("factors", &self.factors, &left.factors)?;
        same("unmatched", &self.unmatched, &[left.unmatched])?;
        zero("work", &self.work)
    }

    fn unchanged(&self, before: &Symmetric) -> Result<(), String> {
        same("factors", &self.factors, &before.factors)?;
        same("unmatched", &self.unmatched, &before.unmatched)?;
        same("work", &self.work, &before.work)
    }
}

impl Unsymmetric {
    pub fn new(given: &Match, random: &mut Random) -> Unsymmetric {
        let n = given.u.len();
        Unsymmetric {
            given: given.clone(),
            rows: doubles(random, n),
            columns: doubles(random, n),
        }
    }

    fn lengths_fit(&self) -> bool {
        let n = self.given.n as usize;
        self.given.duals_fit() && [self.rows.len(), self.columns.len()] == [n; 2]
    }
}

impl Call for Unsymmetric {
    type Left = SideFactors;

    fn expected(&self) -> Result<SideFactors, u32> {
        unsymmetric(&self.given, ROW_LIMIT, self.lengths_fit())
    }

    fn run(&mut self) -> Result<(), Refusal> {
        factors::unsymmetric_factors(
            self.given.n,
            &self.given.u,
            &self.given.v,
            &self.given.cmax,
            &mut self.rows,
            &mut self.columns,
        )
    }

    fn damage(&mut self, random: &mut Random) {
        match random.below(2) {
            0 => other_length(random, &mut self.rows, 7.0),
            _ => other_length(random, &mut self.columns, 7.0),
        }
    }

    fn inputs_unchanged(&self, before: &Unsymmetric) -> Result<(), String> {
        self.given.unchanged(&before.given)
    }

    fn holds(&self, left: &SideFactors) -> Result<(), String> {
        same("row_factors", &self.rows, &left.rows)?;
        same("column_factors", &self.columns, &left.columns)
    }

    fn unchanged(&self, before: &Unsymmetric) -> Result<(), String> {
        same("row_factors", &self.rows, &before.rows)?;
        same("column_factors", &self.columns, &before.columns)
    }
}
