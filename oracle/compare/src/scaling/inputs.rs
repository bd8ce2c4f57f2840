//! Random matrices with a choice and all the lent slices, whole or damaged at a few rules.

use crate::graphs::inputs::Call as Building;
use crate::infnorm::values::set_values;
use crate::numbers::{contents, doubles, other_length};
use crate::sparse::inputs::Matrix;
use crate::sparse::Kind;
use oracle::random::Random;
use suontarvi::scaling::Choice;

pub const CHOICES: [Choice; 5] = [
    Choice::InfNorm,
    Choice::OnePassInfNorm,
    Choice::Mc64Symmetric,
    Choice::Identity,
    Choice::External,
];

/// The arguments of a call.
#[derive(Clone, Debug)]
pub struct Call {
    pub choice: u32,
    /// The matrix, its logs, and the slices that building the graph is lent.
    pub building: Building,
    pub external: Vec<f64>,
    pub factors: Vec<f64>,
    pub maxima: Vec<f64>,
    pub perm: Vec<u32>,
    pub u: Vec<f64>,
    pub v: Vec<f64>,
    pub match_work: Vec<u32>,
    pub distances: Vec<f64>,
    pub factor_work: Vec<u32>,
    pub info: Vec<u32>,
}

impl Call {
    /// Half of them damaged, and half with unused slices of other lengths.
    pub fn random(random: &mut Random) -> Call {
        let choice = CHOICES[random.below(CHOICES.len())];
        let mut call = Call::new(choice, Matrix::whole(Kind::Symmetric, random), random);
        if random.chance(500) {
            for _ in 0..1 + random.below(3) {
                call.damage(random);
            }
        }
        if random.chance(500) {
            call.loosen(random);
        }
        call
    }

    /// The matrix with values for the choice, and slices of the right lengths with any contents.
    pub fn new(choice: Choice, matrix: Matrix, random: &mut Random) -> Call {
        let n = matrix.col_ptr.len().saturating_sub(1);
        let mut building = Building::new(Kind::Symmetric, matrix, random);
        if choice != Choice::Mc64Symmetric {
            set_values(&mut building.matrix, random);
        }
        Call {
            choice: choice.into(),
            building,
            external: doubles(random, n),
            factors: doubles(random, n),
            maxima: doubles(random, n),
            perm: contents(random, n),
            u: doubles(random, n),
            v: doubles(random, n),
            match_work: contents(random, 12 * n + 1),
            distances: doubles(random, 2 * n),
            factor_work: contents(random, n),
            info: contents(random, 2),
        }
    }

    /// For many n MC64 with logs around the ends of their range.
    pub fn at_log_limits(random: &mut Random) -> Vec<Call> {
        let mut calls = Vec::new();
        for building in Building::at_log_limits(Kind::Symmetric, random) {
            let mut call = Call::new(Choice::Mc64Symmetric, building.matrix.clone(), random);
            call.building = building;
            calls.push(call);
        }
        calls
    }

    pub fn is(&self, choice: Choice) -> bool {
        self.choice == choice.into()
    }

    /// Whether the slices that the choice uses have their lengths.
    pub fn lengths_fit(&self) -> bool {
        let n = self.building.matrix.n as usize;
        self.building.matrix.lengths_fit()
            && [self.factors.len(), self.info.len()] == [n, 2]
            && (self.maxima.len() == n || !self.is(Choice::InfNorm))
            && (self.mc64_lengths_fit(n) || !self.is(Choice::Mc64Symmetric))
    }

    fn mc64_lengths_fit(&self, n: usize) -> bool {
        self.building.lengths_fit(Kind::Symmetric)
            && [self.perm.len(), self.u.len(), self.v.len()] == [n; 3]
            && [self.match_work.len(), self.distances.len()] == [12 * n + 1, 2 * n]
            && self.factor_work.len() == n
    }

    /// One change at one rule; now and then it leaves the call whole.
    pub fn damage(&mut self, random: &mut Random) {
        match random.below(20) {
            0..=5 => self.building.damage(random),
            6..=8 => self.building.matrix.damage(random),
            9 => self.choice = [5, 6, 256, 1 << 31, u32::MAX][random.below(5)],
            10 => other_length(random, &mut self.external, 7.0),
            11 => other_length(random, &mut self.factors, 7.0),
            12 => other_length(random, &mut self.maxima, 7.0),
            13 => other_length(random, &mut self.perm, 7),
            14 => other_length(random, &mut self.u, 7.0),
            15 => other_length(random, &mut self.v, 7.0),
            16 => other_length(random, &mut self.match_work, 7),
            17 => other_length(random, &mut self.distances, 7.0),
            18 => other_length(random, &mut self.factor_work, 7),
            _ => other_length(random, &mut self.info, 7),
        }
    }

    /// Other lengths of the slices that every choice but the external one uses.
    pub fn loosen_common(&mut self, random: &mut Random) {
        other_length(random, &mut self.building.matrix.col_ptr, 7);
        other_length(random, &mut self.building.matrix.values, 7.0);
        other_length(random, &mut self.factors, 7.0);
        other_length(random, &mut self.info, 7);
    }

    /// Slices that the choice does not use get other lengths.
    fn loosen(&mut self, random: &mut Random) {
        if !self.is(Choice::InfNorm) {
            other_length(random, &mut self.maxima, 7.0);
        }
        other_length(random, &mut self.external, 7.0);
        if !self.is(Choice::Mc64Symmetric) {
            let Building {
                logs,
                graph_ptr,
                graph_rows,
                cost,
                cmax,
                work,
                ..
            } = &mut self.building;
            let (u, v, distances) = (&mut self.u, &mut self.v, &mut self.distances);
            for slice in [logs, cost, cmax, u, v, distances] {
                other_length(random, slice, 7.0);
            }
            let (perm, match_work) = (&mut self.perm, &mut self.match_work);
            let factor_work = &mut self.factor_work;
            for slice in [graph_ptr, graph_rows, work, perm, match_work, factor_work] {
                other_length(random, slice, 7);
            }
        }
    }
}
