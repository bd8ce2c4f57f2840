//! What symmetric factors achieve: with whole logs, a complete match and no factor held, the two factors of an entry
//! and its log add up to at most 0, and to exactly 0 on every matched pair. The sums are of integers: twice a factor is
//! a whole number.

mod inputs;

use crate::scaling::inputs::Call;
use crate::sparse::inputs::Matrix;
use crate::tally::Tally;
use oracle::random::Random;
use suontarvi::scaling::Done;

/// What no row is.
const NONE: u32 = u32::MAX;

/// What the inputs had.
#[derive(Default)]
struct Met {
    partial: u64,
    held: u64,
    /// Calls with a factor at 709 in magnitude that is not held.
    at_end: u64,
    entries: u64,
    pairs: u64,
    /// Matchings that are not their own mirrors, and entries off the matching with the sum 0.
    turned: u64,
    others: u64,
}

/// Runs matrices until `count` of them have a complete match and no factor held; whether all sums are as they should.
pub fn run(count: u64, random: &mut Random) -> bool {
    let (mut tally, mut met) = (Tally::new("symmetric"), Met::default());
    let mut done = 0;
    while done < count {
        let before = inputs::call(random);
        let mut call = before.clone();
        match call.run() {
            Ok(Done::Applied) if unheld(&call) => {
                done += 1;
                met.at_end += call.factors.iter().any(|f| f.abs() == 709.0) as u64;
                tally.add(0, balanced(&call, &mut met), &before);
            }
            Ok(Done::Applied) => met.held += 1,
            Ok(Done::PartialSingular(_)) => met.partial += 1,
            other => tally.add(0, Err(format!("answered {other:?}")), &before),
        }
    }
    met.print();
    tally.end()
}

/// Whether no factor is held: each is (u + v - cmax) / 2.
fn unheld(call: &Call) -> bool {
    let argument = |i: usize| (call.u[i] + call.v[i] - call.building.cmax[i]) / 2.0;
    (0..call.factors.len()).all(|i| call.factors[i] == argument(i))
}

/// Every kept entry and every matched pair of an answered call.
fn balanced(call: &Call, met: &mut Met) -> Result<(), String> {
    let (matrix, perm) = (&call.building.matrix, &call.perm);
    let mut paired = 0;
    for (place, row, column) in stored(matrix) {
        if matrix.values[place] == 0.0 {
            continue;
        }
        let log = whole(2.0 * call.building.logs[place])?;
        let sum = whole(2.0 * call.factors[row])? + whole(2.0 * call.factors[column])? + log;
        let ours = [(row, column), (column, row)]
            .into_iter()
            .filter(|&(i, j)| perm[j] as usize == i)
            .count();
        if sum > 0 || (ours > 0 && sum != 0) {
            return Err(format!(
                "({row}, {column}): twice the sum is {sum}, matched {ours} times"
            ));
        }
        // a pair off the diagonal that is its own mirror counts for both of its columns
        paired += if row == column { ours.min(1) } else { ours };
        met.entries += 1;
        met.others += (ours == 0 && sum == 0) as u64;
    }
    if paired != matrix.n as usize || perm.contains(&NONE) {
        return Err(format!("{paired} pairs are kept entries"));
    }
    met.pairs += paired as u64;
    met.turned += (0..perm.len()).any(|j| perm[perm[j] as usize] as usize != j) as u64;
    Ok(())
}

/// Place, row and column of every stored entry.
fn stored(matrix: &Matrix) -> impl Iterator<Item = (usize, usize, usize)> + '_ {
    (0..matrix.n as usize).flat_map(move |column| {
        let stretch = matrix.col_ptr[column] as usize..matrix.col_ptr[column + 1] as usize;
        stretch.map(move |place| (place, matrix.rows[place] as usize, column))
    })
}

/// The integer that a double is.
fn whole(x: f64) -> Result<i64, String> {
    if x.abs() < (1u64 << 53) as f64 && x.fract() == 0.0 {
        Ok(x as i64)
    } else {
        Err(format!("{x} is not whole"))
    }
}

impl Met {
    fn print(&self) {
        println!(
            "beside them {} matches not complete, {} with a factor held; of them {} with a factor at 709 that is not \
             held, {} entries, {} pairs, {} matchings not their own mirrors, {} entries of other pairs with the sum 0",
            self.partial,
            self.held,
            self.at_end,
            self.entries,
            self.pairs,
            self.turned,
            self.others
        );
    }
}
