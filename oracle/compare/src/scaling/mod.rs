//! The chooser, with all its choices and unknown numbers. Refusals 4 to 7 are those of the original's `validate`,
//! the others SPECIFICATION's. The original runs on accepted calls alone, as a whole, and never with external factors,
//! which only it takes; MC64's slices are those of its three parts one after the other, and its log factors those
//! before `exp`.

pub mod expected;
pub mod inputs;

use crate::differs::{answer, same};
use crate::sparse::inputs::Matrix;
use crate::sparse::Kind;
use crate::tally::Tally;
use expected::expected;
use inputs::{Call, CHOICES};
use oracle::random::Random;
use suontarvi::scaling::{Choice, Done};
use suontarvi::{raw, Refusal};

/// Accepted calls by choice, and what they had.
#[derive(Default)]
struct Met {
    choices: [u64; CHOICES.len()],
    partial: u64,
    larger: u64,
}

/// Runs `count` inputs, those at the limits, and logs around the limits of many n; whether all was alike.
pub fn run(count: u64, random: &mut Random) -> bool {
    let (mut tally, mut met) = (Tally::new("scaling"), Met::default());
    let mut compare = |call: &Call| {
        if let Some(done) = compare(call, &mut tally) {
            met.add(call, done);
        }
    };
    for _ in 0..count {
        let mut call = Call::random(random);
        if call.is(Choice::External) && random.chance(500) {
            call.loosen_common(random);
        }
        compare(&call);
    }
    let mut limits: Vec<Matrix> = Vec::new();
    Matrix::at_limits(Kind::Symmetric, random, |matrix| {
        limits.push(matrix.clone())
    });
    for matrix in limits {
        for choice in CHOICES {
            compare(&Call::new(choice, matrix.clone(), random));
        }
    }
    for call in Call::at_log_limits(random) {
        compare(&call);
    }
    met.print();
    tally.end()
}

/// One call; what was done if it is accepted.
fn compare(before: &Call, tally: &mut Tally) -> Option<Done> {
    let expected = expected(before);
    let mut after = before.clone();
    let got = after.run();
    let number = expected.as_ref().err().copied().unwrap_or(0);
    let compared = answer(&got, number).and_then(|()| match &expected {
        Ok((_, done)) if got != Ok(*done) => Err(format!("did {got:?}, not {done:?}")),
        Ok((left, _)) => after.same(left),
        Err(_) => after.same(before),
    });
    tally.add(number, compared, before);
    expected.ok().map(|(_, done)| done)
}

impl Call {
    pub fn run(&mut self) -> Result<Done, Refusal> {
        let building = &mut self.building;
        raw::scaling(
            self.choice,
            building.matrix.n,
            &building.matrix.col_ptr,
            &building.matrix.rows,
            &building.matrix.values,
            &self.external,
            &building.logs,
            &mut self.factors,
            &mut self.maxima,
            &mut building.graph_ptr,
            &mut building.graph_rows,
            &mut building.cost,
            &mut building.cmax,
            &mut building.work,
            &mut self.perm,
            &mut self.u,
            &mut self.v,
            &mut self.match_work,
            &mut self.distances,
            &mut self.factor_work,
            &mut self.info,
        )?;
        Ok(Done::from_info([self.info[0], self.info[1]]))
    }

    /// Every slice, used or not.
    fn same(&self, expected: &Call) -> Result<(), String> {
        self.building.inputs_unchanged(&expected.building)?;
        self.building.unchanged(&expected.building)?;
        same("external", &self.external, &expected.external)?;
        same("factors", &self.factors, &expected.factors)?;
        same("maxima", &self.maxima, &expected.maxima)?;
        same("perm", &self.perm, &expected.perm)?;
        same("u", &self.u, &expected.u)?;
        same("v", &self.v, &expected.v)?;
        same("match_work", &self.match_work, &expected.match_work)?;
        same("distances", &self.distances, &expected.distances)?;
        same("factor_work", &self.factor_work, &expected.factor_work)?;
        same("info", &self.info, &expected.info)
    }
}

impl Met {
    fn add(&mut self, call: &Call, done: Done) {
        self.choices[call.choice as usize] += 1;
        self.partial += matches!(done, Done::PartialSingular(_)) as u64;
        self.larger += (call.building.matrix.n > 40) as u64;
    }

    fn print(&self) {
        println!(
            "accepted calls by choice: {:?}; {} of them partial, {} with n above 40",
            self.choices, self.partial, self.larger
        );
    }
}
