//! Log factors of both kinds through both interfaces, against the original before `exp`. The original tests
//! nothing here: refusals are expected by SPECIFICATION's rules, and it runs on accepted matches alone.

mod bytes;
pub mod expected;
pub mod matches;
pub mod native;

use crate::differs::{answer, same};
use crate::tally::Tally;
use expected::{LogFactors, SideFactors};
use matches::Match;
use oracle::random::Random;
use suontarvi::Refusal;

/// Inputs of the four calls, and what the accepted ones of the native symmetric one had.
struct Run {
    native: [Tally; 2],
    bytes: [Tally; 2],
    met: Met,
}

/// Accepted matches by what they had.
#[derive(Default)]
struct Met {
    partial: u64,
    held: u64,
    negative_zero: u64,
    larger: u64,
}

/// Runs `count` inputs of each call, and those at the limits; whether all was alike.
pub fn run(count: u64, random: &mut Random) -> bool {
    let mut run = Run {
        native: [Tally::new("log_factors"), Tally::new("unsymmetric_factors")],
        bytes: [
            Tally::new("log_factors_bytes"),
            Tally::new("unsymmetric_factors_bytes"),
        ],
        met: Met::default(),
    };
    for _ in 0..count {
        run.compare(&Match::random(random), random);
    }
    for _ in 0..20 {
        for n in [0, 256, 257, 4096, 4097] {
            run.compare(&Match::sized(n, random), random);
        }
    }
    run.met.print();
    let tallies = run.native.iter().chain(&run.bytes);
    tallies.fold(true, |alike, tally| tally.end() & alike)
}

impl Run {
    /// The four calls on one match, each with damage of its own in a fifth of them.
    fn compare(&mut self, given: &Match, random: &mut Random) {
        let [symmetric, unsymmetric] = &mut self.native;
        let left = compare(native::Symmetric::new(given, random), symmetric, random);
        self.met.add(left);
        compare(native::Unsymmetric::new(given, random), unsymmetric, random);
        let [symmetric, unsymmetric] = &mut self.bytes;
        compare(bytes::Symmetric::new(given, random), symmetric, random);
        compare(bytes::Unsymmetric::new(given, random), unsymmetric, random);
    }
}

/// The arguments of one of the four calls.
pub trait Call: Clone + std::fmt::Debug {
    /// What an accepted call leaves.
    type Left;

    /// The first refusal in the order of SPECIFICATION 3.5, or what the slices hold then.
    fn expected(&self) -> Result<Self::Left, u32>;

    fn run(&mut self) -> Result<(), Refusal>;

    /// One length becomes another.
    fn damage(&mut self, random: &mut Random);

    fn inputs_unchanged(&self, before: &Self) -> Result<(), String>;

    fn holds(&self, left: &Self::Left) -> Result<(), String>;

    /// After a refusal nothing has changed.
    fn unchanged(&self, before: &Self) -> Result<(), String>;
}

/// One call; what was expected of it if it is accepted.
fn compare<C: Call>(mut before: C, tally: &mut Tally, random: &mut Random) -> Option<C::Left> {
    if random.chance(200) {
        before.damage(random);
    }
    let expected = before.expected();
    let mut after = before.clone();
    let got = after.run();
    let number = expected.as_ref().err().copied().unwrap_or(0);
    let compared = answer(&got, number)
        .and_then(|()| after.inputs_unchanged(&before))
        .and_then(|()| match &expected {
            Ok(left) => after.holds(left),
            Err(_) => after.unchanged(&before),
        });
    tally.add(number, compared, &before);
    expected.ok()
}

impl Match {
    fn unchanged(&self, before: &Match) -> Result<(), String> {
        same("perm", &self.perm, &before.perm)?;
        same("u", &self.u, &before.u)?;
        same("v", &self.v, &before.v)?;
        same("cmax", &self.cmax, &before.cmax)
    }
}

impl Met {
    fn add(&mut self, left: Option<LogFactors>) {
        let Some(LogFactors { factors, unmatched }) = left else {
            return;
        };
        let negative_zero = |log: &f64| log.to_bits() == (-0.0f64).to_bits();
        self.partial += (unmatched > 0) as u64;
        self.held += factors.iter().any(|log| log.abs() == 709.0) as u64;
        self.negative_zero += factors.iter().any(negative_zero) as u64;
        self.larger += (factors.len() > 12) as u64;
    }

    fn print(&self) {
        println!(
            "accepted matches of log_factors: {} partial, {} with a factor of -709 or 709, {} with one of \
             -0.0, {} with n above 12",
            self.partial, self.held, self.negative_zero, self.larger
        );
    }
}
