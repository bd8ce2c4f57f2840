//! What the match is for: an LU without row exchanges, before and after it. A matrix is solved as it is, A x = b, and
//! permuted and scaled, (R A C)[perm] y = (R b)[perm] with x = C y; R and C are powers of two, so that nothing is
//! rounded on the way there and back. b belongs to a known x, whose entries are from 1 to 2, each in the unit of its
//! column, C_j. Printed are the largest relative error of an entry of x, the growth (the largest entry of U over the
//! largest of the matrix that is factored) and the pivots that were taken off the diagonal.
//! `cargo run --release --example solve [FILE.mtx ...]`, after `tools/build.sh suontarvi`; without a file, matrices
//! that are made here: rows shuffled, rows and columns scaled by powers of ten up to 6; the last two are of those on which
//! the match has nothing to go by.
use std::collections::BTreeSet;
use std::error::Error;

use suontarvi::{GeneralMatrix, Refusal};

/// L, U and the order of the rows, of a sparse LU that takes the diagonal entry as pivot.
#[derive(Default)]
struct Lu {
    /// Below the diagonal, by columns: row of the matrix and multiplier.
    lower: Vec<Vec<(usize, f64)>>,
    /// Above the diagonal, by columns: step and value.
    upper: Vec<Vec<(usize, f64)>>,
    /// The pivot of each step, and its row.
    pivots: Vec<f64>,
    row_of_step: Vec<usize>,
    /// How many pivots are not of the row of their step.
    off_diagonal: usize,
    largest: f64,
}

/// The diagonal entry, however small; only if that is zero, or taken, the largest that is left. None if nothing is.
fn pivot(column: usize, spread: &[f64], taken: &[bool]) -> Option<usize> {
    if !taken[column] && spread[column] != 0.0 {
        return Some(column);
    }
    let free = (0..spread.len()).filter(|&row| !taken[row] && spread[row] != 0.0);
    free.max_by(|&one, &other| spread[one].abs().total_cmp(&spread[other].abs()))
}

/// Column by column (left-looking): the column is spread out, each earlier step whose entry is not zero is taken off
/// it, in order, and what is left is split at the pivot. None if a column is left without one.
fn factored(matrix: &GeneralMatrix) -> Option<Lu> {
    let n = matrix.n();
    let mut lu = Lu::default();
    let mut taken = vec![false; n];
    let mut spread = vec![0.0; n];
    for column in 0..n {
        for at in matrix.col_ptr()[column] as usize..matrix.col_ptr()[column + 1] as usize {
            spread[matrix.row_idx()[at] as usize] = matrix.values()[at];
        }
        let mut upper = Vec::new();
        for step in 0..column {
            let factor = std::mem::take(&mut spread[lu.row_of_step[step]]);
            if factor != 0.0 {
                lu.lower[step].iter().for_each(|&(row, multiplier)| spread[row] -= multiplier * factor);
                upper.push((step, factor));
            }
        }
        let pivot = pivot(column, &spread, &taken)?;
        let size = spread[pivot];
        let below = (0..n).filter(|&row| !taken[row] && row != pivot && spread[row] != 0.0);
        lu.lower.push(below.map(|row| (row, spread[row] / size)).collect());
        lu.largest = upper.iter().fold(lu.largest.max(size.abs()), |largest, (_, value)| largest.max(value.abs()));
        lu.upper.push(upper);
        lu.pivots.push(size);
        lu.row_of_step.push(pivot);
        lu.off_diagonal += usize::from(pivot != column);
        taken[pivot] = true;
        spread.fill(0.0);
    }
    Some(lu)
}

impl Lu {
    /// L from the first step down, then U from the last one up.
    fn solve(&self, rhs: &[f64]) -> Vec<f64> {
        let mut left = rhs.to_vec();
        let mut x: Vec<f64> = Vec::new();
        for (step, &row) in self.row_of_step.iter().enumerate() {
            let value = left[row];
            self.lower[step].iter().for_each(|&(row, multiplier)| left[row] -= multiplier * value);
            x.push(value);
        }
        for step in (0..x.len()).rev() {
            x[step] /= self.pivots[step];
            let value = x[step];
            self.upper[step].iter().for_each(|&(above, entry)| x[above] -= entry * value);
        }
        x
    }
}

/// A solution, and how it was come by.
struct Solved {
    x: Vec<f64>,
    growth: f64,
    off_diagonal: usize,
}

/// A x = b as it is; None if a column is left without a pivot.
fn solve_raw(matrix: &GeneralMatrix, rhs: &[f64]) -> Option<Solved> {
    let lu = factored(matrix)?;
    let largest = matrix.values().iter().fold(0.0f64, |largest, value| largest.max(value.abs()));
    Some(Solved { x: lu.solve(rhs), growth: lu.largest / largest, off_diagonal: lu.off_diagonal })
}

/// 2 to a power that may be beyond the range of one double, times `x`.
fn times_power(x: f64, exponent: i32) -> f64 {
    let half = exponent / 2;
    x * 2f64.powi(half) * 2f64.powi(exponent - half)
}

/// The same by way of the match; None also if that is not complete.
fn solve_scaled(matrix: &GeneralMatrix, rhs: &[f64]) -> Result<Option<Solved>, Refusal> {
    let found = matrix.whole_cost_graph()?.matching();
    if !found.is_complete() {
        return Ok(None);
    }
    let by = found.exponents()?;
    let mut scaled = matrix.clone();
    scaled.scale_by(&by)?;
    // row perm[k] comes to place k, so that the matched entries are on the diagonal
    let mut place = vec![0; matrix.n()];
    found.pairs().for_each(|(row, column)| place[row] = column as u32);
    let entries = scaled.entries().map(|(row, column, value)| (place[row], column as u32, value));
    let permuted = GeneralMatrix::from_entries(matrix.n(), entries)?;
    let permuted_rhs: Vec<f64> =
        found.perm.iter().map(|&row| times_power(rhs[row as usize], by.rows[row as usize])).collect();
    Ok(solve_raw(&permuted, &permuted_rhs).map(|solved| {
        let x = solved.x.iter().zip(&by.columns).map(|(&y, &exponent)| times_power(y, exponent)).collect();
        Solved { x, ..solved }
    }))
}

/// x with entries from 1 to 2, each in the unit of its column, and its right-hand side.
fn known_solution(matrix: &GeneralMatrix) -> Result<(Vec<f64>, Vec<f64>), Refusal> {
    let by = matrix.whole_cost_graph()?.matching().exponents()?;
    let mut random = Random(1);
    let x: Vec<f64> = by.columns.iter().map(|&exponent| times_power(1.0 + random.next(), exponent)).collect();
    let mut rhs = vec![0.0; matrix.n()];
    matrix.entries().for_each(|(row, column, value)| rhs[row] += value * x[column]);
    Ok((x, rhs))
}

/// The largest relative error of an entry; 1 stands for all that is lost.
fn error(found: &[f64], x: &[f64]) -> f64 {
    let errors = found.iter().zip(x).map(|(found, x)| ((found - x) / x).abs());
    errors.fold(0.0, |worst: f64, error| if error.is_nan() { 1.0 } else { worst.max(error) }).min(1.0)
}

/// Errors raw and scaled, 1 where there is no solution; prints both lines.
fn compare(name: &str, matrix: &GeneralMatrix) -> Result<(f64, f64), Refusal> {
    let (x, rhs) = known_solution(matrix)?;
    let mut errors = [1.0; 2];
    let ways = [("raw", solve_raw(matrix, &rhs)), ("scaled", solve_scaled(matrix, &rhs)?)];
    for (at, (way, solved)) in ways.iter().enumerate() {
        let head =
            if at == 0 { format!("{name:14} {:>5} {:>8}", matrix.n(), matrix.values().len()) } else { "".into() };
        match solved {
            Some(Solved { x: found, growth, off_diagonal }) => {
                errors[at] = error(found, &x);
                println!("{head:29} {way:7} {:>8.1e} {growth:>8.1e} {off_diagonal:>5}", errors[at]);
            }
            None => println!("{head:29} {way:7} singular"),
        }
    }
    Ok((errors[0], errors[1]))
}

/// A linear congruential generator: numbers in [0, 1).
struct Random(u64);

impl Random {
    fn next(&mut self) -> f64 {
        self.0 = self.0.wrapping_mul(6364136223846793005).wrapping_add(1442695040888963407);
        (self.0 >> 11) as f64 / (1u64 << 53) as f64
    }

    fn below(&mut self, bound: usize) -> usize {
        (self.next() * bound as f64) as usize
    }

    /// From -1 to 1, with one sign as often as the other.
    fn signed(&mut self) -> f64 {
        2.0 * self.next() - 1.0
    }

    fn shuffled(&mut self, n: usize) -> Vec<usize> {
        let mut order: Vec<usize> = (0..n).collect();
        (1..n).rev().for_each(|at| order.swap(at, self.below(at + 1)));
        order
    }
}

type Entries = Vec<(usize, usize, f64)>;

/// Three entries in a column beside a diagonal of 1 to 3.
fn random_sparse(random: &mut Random, n: usize) -> Entries {
    let mut entries = Vec::new();
    for column in 0..n {
        entries.push((column, column, (1.0 + 2.0 * random.next()).copysign(random.signed())));
        entries.extend((0..3).map(|_| (random.below(n), column, random.signed())));
    }
    entries
}

/// Rows shuffled, rows and columns scaled by powers of ten from -6 to 6.
fn spoilt(random: &mut Random, n: usize, entries: Entries) -> Entries {
    let order = random.shuffled(n);
    let factors: Vec<f64> = (0..2 * n).map(|_| 10f64.powf(6.0 * random.signed())).collect();
    let moved = |(row, column, value): (usize, usize, f64)| {
        (order[row], column, factors[order[row]] * value * factors[n + column])
    };
    entries.into_iter().map(moved).collect()
}

/// A symmetric pattern of which every entry is 1 or -1: all complete matchings have one product, and the match cannot
/// tell them apart.
fn signs(random: &mut Random, n: usize) -> Entries {
    let mut places: BTreeSet<(usize, usize)> = (0..n).map(|at| (at, at)).collect();
    for _ in 0..2 * n {
        let (row, column) = (random.below(n), random.below(n));
        places.extend([(row, column), (column, row)]);
    }
    places.into_iter().map(|(row, column)| (row, column, 1f64.copysign(random.signed()))).collect()
}

/// The matrices of this program: name, n, entries.
fn made() -> Vec<(&'static str, usize, Entries)> {
    let mut random = Random(7);
    let spoilt_one = |random: &mut Random, n| {
        let good = random_sparse(random, n);
        spoilt(random, n, good)
    };
    vec![
        ("random 200", 200, spoilt_one(&mut random, 200)),
        ("random 400", 400, spoilt_one(&mut random, 400)),
        ("random 1000", 1000, spoilt_one(&mut random, 1000)),
        ("not spoilt", 300, random_sparse(&mut random, 300)),
        ("signs 120", 120, signs(&mut random, 120)),
    ]
}

fn assembled(n: usize, entries: Entries) -> Result<GeneralMatrix, Refusal> {
    GeneralMatrix::from_entries(n, entries.into_iter().map(|(row, column, value)| (row as u32, column as u32, value)))
}

/// A matrix of real numbers by coordinates, general or symmetric.
fn read(text: &str) -> Result<GeneralMatrix, Box<dyn Error>> {
    let banner = text.lines().next().unwrap_or_default().to_ascii_lowercase();
    let symmetric = match banner.split_whitespace().collect::<Vec<_>>()[..] {
        ["%%matrixmarket", "matrix", "coordinate", "real" | "integer", "general"] => false,
        ["%%matrixmarket", "matrix", "coordinate", "real" | "integer", "symmetric"] => true,
        _ => return Err("the banner is not that of a real matrix by coordinates".into()),
    };
    let mut lines = text.lines().filter(|line| !line.starts_with('%') && !line.trim().is_empty());
    let size: Vec<&str> = lines.next().unwrap_or_default().split_whitespace().collect();
    let [rows, columns, _] = size[..] else { return Err("the size line has three numbers".into()) };
    if rows != columns {
        return Err("the matrix is not square".into());
    }
    let mut entries = Vec::new();
    for line in lines {
        let [row, column, value] = line.split_whitespace().collect::<Vec<_>>()[..] else {
            return Err("an entry has three numbers".into());
        };
        // 0 wraps to an index that the library refuses
        let (row, column) = (row.parse::<u32>()?.wrapping_sub(1), column.parse::<u32>()?.wrapping_sub(1));
        let value: f64 = value.parse()?;
        entries.push((row, column, value));
        if symmetric && row != column {
            entries.push((column, row, value));
        }
    }
    GeneralMatrix::from_entries(rows.parse()?, entries).map_err(|refusal| refusal.to_string().into())
}

fn main() -> Result<(), Box<dyn Error>> {
    let files: Vec<_> = std::env::args_os().skip(1).collect();
    println!("{:14} {:>5} {:>8} {:7} {:>8} {:>8} {:>5}", "matrix", "n", "entries", "way", "error", "growth", "off");
    for file in &files {
        let name = std::path::Path::new(file).file_stem().unwrap_or(file).to_string_lossy();
        let matrix = std::fs::read_to_string(file).map_err(Into::into).and_then(|text| read(&text));
        let matrix = matrix.map_err(|reason| format!("{name}: {reason}"))?;
        compare(&name, &matrix).map_err(|refusal| format!("{name} is {refusal}"))?;
    }
    if files.is_empty() {
        for (name, n, entries) in made() {
            let matrix = assembled(n, entries).map_err(|refusal| refusal.to_string())?;
            compare(name, &matrix).map_err(|refusal| format!("{name} is {refusal}"))?;
        }
    }
    Ok(())
}

/// Spoilt matrices lose nearly all digits as they are and keep twelve permuted and scaled. One that is
/// not spoilt is as it was; where the match has nothing to go by, digits are lost.
#[test]
fn scaled_ones_are_solved() {
    for (name, n, entries) in made() {
        let (raw, scaled) = compare(name, &assembled(n, entries).unwrap()).unwrap();
        match name {
            "signs 120" => assert!(scaled > 1e-14, "{raw} {scaled}"),
            "not spoilt" => assert!(raw < 1e-12 && scaled < 1e-12, "{raw} {scaled}"),
            _ => assert!(raw > 1e-3 && scaled < 1e-12, "{name}: {raw} {scaled}"),
        }
    }
}

/// A singular matrix has no solution either way; a small one has the right one.
#[test]
fn small_ones() {
    let singular = GeneralMatrix::from_entries(2, [(0, 0, 1.0), (0, 1, 1.0)]).unwrap();
    assert!(solve_raw(&singular, &[1.0, 1.0]).is_none() && solve_scaled(&singular, &[1.0, 1.0]).unwrap().is_none());
    let matrix = read("%%MatrixMarket matrix coordinate real symmetric\n% x\n2 2 2\n1 1 3\n2 1 1e9\n").unwrap();
    for solved in [solve_raw(&matrix, &[1e9, 5e8]), solve_scaled(&matrix, &[1e9, 5e8]).unwrap()] {
        assert!(error(&solved.unwrap().x, &[0.5, 0.9999999985]) < 1e-9);
    }
}
