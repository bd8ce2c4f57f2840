//! Values whose roots, products and quotients are at the ends of the doubles, or exact, or near 1.

use crate::numbers::doubles;
use crate::sparse::inputs::Matrix;
use oracle::random::Random;

const ENDS: [f64; 12] = [
    f64::NAN,
    f64::INFINITY,
    f64::NEG_INFINITY,
    f64::MAX,
    f64::MIN,
    f64::MIN_POSITIVE,
    5e-324,
    -5e-324,
    0.0,
    -0.0,
    1.0,
    -4.0,
];

/// Gives the matrix values of one mood; now and then some are zeros, or the whole row and column of some index is.
pub fn set_values(matrix: &mut Matrix, random: &mut Random) {
    let mood = random.below(8);
    let value = |random: &mut Random| match mood {
        0 => f64::from_bits(random.bits() >> (12 + random.below(52))), // subnormals
        1 => ENDS[random.below(ENDS.len())],
        2 => near_one(random),
        3 => 4f64.powi(random.below(9) as i32 - 4),
        4 => random.spread(1022),
        5 => [2.5, -2.5][random.below(2)],
        _ => random.spread(8),
    };
    let count = matrix.values.len();
    matrix.values = match mood {
        6 => doubles(random, count),
        _ => (0..count).map(|_| value(random)).collect(),
    };
    if random.chance(300) {
        let zeros = [100, 500, 1000][random.below(3)];
        for value in &mut matrix.values {
            if random.chance(zeros) {
                *value = [0.0, -0.0][random.below(2)];
            }
        }
    }
    if random.chance(300) {
        clear_index(matrix, random);
    }
}

/// 1 and the doubles on both sides of it, at all distances.
fn near_one(random: &mut Random) -> f64 {
    let steps = random.bits() >> random.below(64) >> 12;
    let one = 1f64.to_bits();
    f64::from_bits(match random.chance(500) {
        true => one + steps,
        false => one - steps,
    })
}

/// One index has no entry but zeros and NaN; pointers of a damaged matrix are left alone.
fn clear_index(matrix: &mut Matrix, random: &mut Random) {
    let index = random.below(matrix.n as usize + 1);
    for column in 0..matrix.col_ptr.len().saturating_sub(1) {
        let ends = &matrix.col_ptr[column..];
        for at in ends[0] as usize..ends[1] as usize {
            let (Some(&row), Some(value)) = (matrix.rows.get(at), matrix.values.get_mut(at)) else {
                break;
            };
            if column == index || row as usize == index {
                *value = [0.0, -0.0, f64::NAN][random.below(3)];
            }
        }
    }
}
