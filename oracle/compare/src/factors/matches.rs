//! Random matches with the largest log of each column, whole or damaged at a rule.

use crate::numbers::{doubles, near, other_length};
use crate::sparse::ROW_LIMIT;
use oracle::random::Random;
use suontarvi::matching::NONE;

/// What the factors are made of.
#[derive(Clone, Debug)]
pub struct Match {
    pub n: u32,
    pub matched: u32,
    pub perm: Vec<u32>,
    pub u: Vec<f64>,
    pub v: Vec<f64>,
    pub cmax: Vec<f64>,
}

impl Match {
    /// A match of n up to 12, now and then up to 300; two in five damaged.
    pub fn random(random: &mut Random) -> Match {
        let n = match random.below(100) {
            0 => random.below(301),
            _ => random.below(13),
        };
        let mut given = Match::sized(n, random);
        if random.chance(400) {
            for _ in 0..1 + random.below(2) {
                given.damage(random);
            }
        }
        given
    }

    pub fn sized(n: usize, random: &mut Random) -> Match {
        let perm = perm(n, random);
        let pairs = perm.iter().filter(|&&row| row != NONE).count();
        // The count is only carried on: any one is taken.
        let matched = match random.chance(200) {
            true => random.below(n + 1),
            false => pairs,
        };
        Match {
            n: n as u32,
            matched: matched as u32,
            perm,
            u: numbers(n, random),
            v: numbers(n, random),
            cmax: numbers(n, random),
        }
    }

    /// One change at one rule; now and then it leaves the match whole.
    pub fn damage(&mut self, random: &mut Random) {
        match random.below(16) {
            0 => self.n = near(random, self.n),
            1 => self.n = near(random, 256),
            2 => self.n = near(random, ROW_LIMIT),
            3 => other_length(random, &mut self.perm, 0),
            4 => other_length(random, &mut self.u, 7.0),
            5 => other_length(random, &mut self.v, 7.0),
            6 => other_length(random, &mut self.cmax, 7.0),
            7..=9 => self.matched = near(random, self.n),
            _ if self.perm.is_empty() => {}
            _ => {
                let at = random.below(self.perm.len());
                self.perm[at] = near(random, self.n);
            }
        }
    }
}

/// A partial permutation, or any rows, which may repeat.
fn perm(n: usize, random: &mut Random) -> Vec<u32> {
    let free = [0, 0, 200, 1000][random.below(4)];
    let mut perm: Vec<u32> = (0..n as u32).collect();
    if random.chance(200) {
        perm.fill_with(|| random.below(n) as u32);
    } else {
        for column in (1..n).rev() {
            perm.swap(column, random.below(column + 1));
        }
    }
    for row in &mut perm {
        if random.chance(free) {
            *row = NONE;
        }
    }
    perm
}

/// Numbers whose sums are at the ends of what is held, or beside them, or not finite.
const ENDS: [f64; 20] = [
    0.0,
    -0.0,
    -0.0,
    1.0,
    5e-324,
    708.999_999_999_999_9,
    709.0,
    -709.0,
    709.000_000_000_000_1,
    -709.000_000_000_000_1,
    1418.0,
    -1418.0,
    1_418.000_000_000_000_2,
    -1_418.000_000_000_000_2,
    -1420.0,
    f64::MAX,
    f64::MIN,
    f64::INFINITY,
    f64::NEG_INFINITY,
    f64::NAN,
];

/// Duals or largest logs of one mood.
fn numbers(n: usize, random: &mut Random) -> Vec<f64> {
    let (mood, ends) = (random.below(6), [0, 100, 700][random.below(3)]);
    let number = |random: &mut Random| match mood {
        _ if random.chance(ends) => ENDS[random.below(ENDS.len())],
        0 => random.spread(12),
        1 => random.below(1000) as f64 - 500.0,
        2 => oracle::logs(&[random.spread(1022)])[0],
        3 => [0.0, -0.0][random.below(2)],
        _ => random.spread(3),
    };
    match mood {
        5 => doubles(random, n),
        _ => (0..n).map(|_| number(random)).collect(),
    }
}
