//! Symmetric matrices with whole logs, many of them equal; most have a complete match, along a random permutation.

use crate::scaling::inputs::Call;
use crate::sparse::inputs::Matrix;
use crate::sparse::narrow;
use oracle::random::Random;
use suontarvi::scaling::Choice;

/// The largest n.
const MOST_ROWS: usize = 40;

/// A call of MC64 with whole logs.
pub fn call(random: &mut Random) -> Call {
    let n = match random.below(4) {
        0 => 1 + random.below(MOST_ROWS),
        _ => 1 + random.below(8),
    };
    let matrix = matrix(n, random);
    let mut call = Call::new(Choice::Mc64Symmetric, matrix, random);
    // 1,418 is twice 709: such factors stand at the end and are not held
    let span = [1, 2, 3, 10, 300, 700, 1418, 1500][random.below(8)];
    let few = random.chance(500);
    for place in 0..call.building.logs.len() {
        let dropped = random.chance(30);
        call.building.matrix.values[place] = if dropped { 0.0 } else { 1.5 };
        let log = random.below(2 * span + 1) as f64 - span as f64;
        call.building.logs[place] = match dropped {
            true => f64::NAN,
            false if few && random.chance(700) => span as f64,
            false => log,
        };
    }
    call
}

/// A lower triangle: random places, and usually the places of a permutation.
fn matrix(n: usize, random: &mut Random) -> Matrix {
    let per_mille = [30, 150, 400, 1000][random.below(4)];
    let mut kept = vec![vec![false; n]; n];
    for column in 0..n {
        for row in column..n {
            kept[column][row] = random.chance(per_mille);
        }
    }
    if random.chance(900) {
        for (i, j) in permutation(n, random).into_iter().enumerate() {
            kept[i.min(j)][i.max(j)] = true;
        }
    }
    let (mut col_ptr, mut rows) = (vec![0], Vec::new());
    for column in &kept {
        rows.extend((0..n).filter(|&row| column[row]));
        col_ptr.push(rows.len());
    }
    Matrix {
        n: n as u32,
        col_ptr: narrow(&col_ptr),
        values: vec![1.0; rows.len()],
        rows: narrow(&rows),
    }
}

fn permutation(n: usize, random: &mut Random) -> Vec<usize> {
    let mut order: Vec<usize> = (0..n).collect();
    for i in (1..n).rev() {
        order.swap(i, random.below(i + 1));
    }
    order
}
