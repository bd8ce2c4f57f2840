//! Inf-norm factors, iterated and one-pass. The original tests nothing here: refusals 4 to 7 are its `validate`'s, the
//! others SPECIFICATION's. It runs on accepted matrices alone.

pub mod values;

use crate::differs::{answer, same};
use crate::numbers::{doubles, other_length};
use crate::sparse::inputs::Matrix;
use crate::sparse::{wide, Kind};
use crate::tally::Tally;
use oracle::random::Random;
use oracle::{ScalingInfo, Symmetric};
use suontarvi::{scaling, Refusal};
use values::set_values;

#[derive(Clone, Copy, PartialEq)]
pub enum Rule {
    Iterated,
    OnePass,
}

/// The arguments of a call; the one-pass call is lent no work.
#[derive(Clone, Debug)]
pub struct Call {
    pub matrix: Matrix,
    pub factors: Vec<f64>,
    pub work: Vec<f64>,
}

/// Accepted matrices by what they had.
#[derive(Default)]
struct Met {
    not_finite: u64,
    subnormal: u64,
    idle_rows: u64,
    larger: u64,
}

/// Runs `count` inputs of each call, and those at the limits; whether all was alike.
pub fn run(count: u64, random: &mut Random) -> bool {
    let mut alike = true;
    for (rule, name) in [(Rule::Iterated, "infnorm"), (Rule::OnePass, "onepass")] {
        let (mut tally, mut met) = (Tally::new(name), Met::default());
        let mut compare = |call: &Call| {
            if let Some(left) = compare(rule, call, &mut tally) {
                met.add(&left);
            }
        };
        for _ in 0..count {
            compare(&Call::random(random));
        }
        let mut limits: Vec<Matrix> = Vec::new();
        Matrix::at_limits(Kind::Symmetric, random, |matrix| {
            limits.push(matrix.clone())
        });
        for mut matrix in limits {
            set_values(&mut matrix, random);
            compare(&Call::new(matrix, random));
        }
        met.print();
        alike &= tally.end();
    }
    alike
}

/// One call; what it leaves if it is accepted.
fn compare(rule: Rule, before: &Call, tally: &mut Tally) -> Option<Call> {
    let expected = before.expected(rule);
    let mut after = before.clone();
    let got = after.run(rule);
    let number = expected.as_ref().err().copied().unwrap_or(0);
    let left = expected.as_ref().unwrap_or(before);
    let compared = answer(&got, number).and_then(|()| after.same(left));
    tally.add(number, compared, before);
    expected.ok()
}

impl Call {
    /// Half of them damaged.
    pub fn random(random: &mut Random) -> Call {
        let mut matrix = Matrix::whole(Kind::Symmetric, random);
        set_values(&mut matrix, random);
        let mut call = Call::new(matrix, random);
        if random.chance(500) {
            for _ in 0..1 + random.below(3) {
                call.damage(random);
            }
        }
        call
    }

    /// The matrix, and slices of the right lengths with any contents.
    pub fn new(matrix: Matrix, random: &mut Random) -> Call {
        let n = matrix.col_ptr.len().saturating_sub(1);
        Call {
            matrix,
            factors: doubles(random, n),
            work: doubles(random, n),
        }
    }

    /// One change at one rule; now and then it leaves the call whole.
    fn damage(&mut self, random: &mut Random) {
        match random.below(10) {
            0 => other_length(random, &mut self.factors, 7.0),
            1 => other_length(random, &mut self.work, 7.0),
            _ => self.matrix.damage(random),
        }
    }

    /// The first refusal in the order of SPECIFICATION 3.5, or the slices as the call leaves them.
    pub fn expected(&self, rule: Rule) -> Result<Call, u32> {
        let n = self.matrix.n as usize;
        let lengths_fit = self.matrix.lengths_fit()
            && self.factors.len() == n
            && (self.work.len() == n || rule == Rule::OnePass);
        match Kind::Symmetric.fault(&self.matrix, lengths_fit) {
            0 => {}
            fault => return Err(fault),
        }
        let original = original(&self.matrix);
        let mut left = self.clone();
        let (factors, info) = match rule {
            Rule::Iterated => {
                left.work.fill(0.0);
                original.infnorm()
            }
            Rule::OnePass => original.onepass(),
        };
        assert_eq!(info, ScalingInfo::Applied, "the original says no other");
        left.factors = factors;
        Ok(left)
    }

    fn run(&mut self, rule: Rule) -> Result<(), Refusal> {
        let (matrix, factors) = (&self.matrix, &mut self.factors);
        let (pointers, rows, values) = (&matrix.col_ptr, &matrix.rows, &matrix.values);
        match rule {
            Rule::Iterated => {
                scaling::infnorm(matrix.n, pointers, rows, values, factors, &mut self.work)
            }
            Rule::OnePass => scaling::onepass(matrix.n, pointers, rows, values, factors),
        }
    }

    fn same(&self, expected: &Call) -> Result<(), String> {
        self.matrix.unchanged(&expected.matrix)?;
        same("factors", &self.factors, &expected.factors)?;
        same("work", &self.work, &expected.work)
    }
}

/// A matrix in the original's form.
pub fn original(matrix: &Matrix) -> Symmetric {
    let (col_ptr, row_idx) = (wide(&matrix.col_ptr), wide(&matrix.rows));
    Symmetric::new(matrix.n as usize, col_ptr, row_idx, matrix.values.clone())
}

impl Met {
    fn add(&mut self, left: &Call) {
        let values = &left.matrix.values;
        self.not_finite += values.iter().any(|value| !value.is_finite()) as u64;
        self.subnormal += values.iter().any(|value| value.is_subnormal()) as u64;
        self.idle_rows += (left.factors.contains(&1.0) && values.contains(&0.0)) as u64;
        self.larger += (left.matrix.n > 40) as u64;
    }

    fn print(&self) {
        println!(
            "accepted matrices: {} with a value that is not finite, {} with a subnormal, {} with a zero and a factor \
             of 1, {} with n above 40",
            self.not_finite, self.subnormal, self.idle_rows, self.larger
        );
    }
}
