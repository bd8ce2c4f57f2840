//! Random inputs of both kinds, each whole or damaged at a few rules, and inputs at the limits.

use super::{narrow, Kind, ROW_LIMIT};
use crate::numbers::{contents, doubles, near, other_length};
use oracle::random::Random;

/// The largest n of the random inputs.
const MOST_ROWS: usize = 40;

/// A matrix by columns: what `validate` is lent.
#[derive(Clone, Debug)]
pub struct Matrix {
    pub n: u32,
    pub col_ptr: Vec<u32>,
    pub rows: Vec<u32>,
    pub values: Vec<f64>,
}

/// Triplets, and the slices that `from_triplets` is lent beside them.
#[derive(Clone, Debug)]
pub struct Triplets {
    pub n: u32,
    pub rows: Vec<u32>,
    pub cols: Vec<u32>,
    pub vals: Vec<f64>,
    pub col_ptr: Vec<u32>,
    pub row_idx: Vec<u32>,
    pub values: Vec<f64>,
    pub work: Vec<u32>,
}

impl Matrix {
    pub fn random(kind: Kind, random: &mut Random) -> Matrix {
        let mut matrix = Matrix::whole(kind, random);
        if random.chance(700) {
            for _ in 0..1 + random.below(3) {
                matrix.damage(random);
            }
        }
        matrix
    }

    pub fn whole(kind: Kind, random: &mut Random) -> Matrix {
        let n = random.below(MOST_ROWS + 1);
        let per_mille = [30, 100, 300, 1000][random.below(4)];
        let (col_ptr, rows) = match kind {
            Kind::Symmetric => random.lower_pattern(n, per_mille),
            Kind::General => random.pattern(n, per_mille),
        };
        Matrix {
            n: n as u32,
            col_ptr: narrow(&col_ptr),
            values: doubles(random, rows.len()),
            rows: narrow(&rows),
        }
    }

    /// One change at one rule; now and then it leaves the matrix whole.
    pub fn damage(&mut self, random: &mut Random) {
        match random.below(20) {
            0 if random.chance(500) => self.n = near(random, self.n),
            0 => self.n = near(random, ROW_LIMIT),
            1 => other_length(random, &mut self.col_ptr, self.rows.len() as u32),
            2 => other_length(random, &mut self.rows, self.n),
            3 => other_length(random, &mut self.values, 1.0),
            4 => self.rows.fill(u32::MAX),
            5..=8 => self.damage_pointer(random),
            _ if self.rows.is_empty() => {}
            9..=11 => self.swap(random),
            place => {
                let at = random.below(self.rows.len());
                self.rows[at] = match place {
                    12..=14 => near(random, self.n),
                    15 => self.rows[at.saturating_sub(1)],
                    16 => 0,
                    _ => self.rows[at]
                        .wrapping_add(random.below(3) as u32)
                        .wrapping_sub(1),
                };
            }
        }
    }

    /// The first, the last or some pointer moves.
    fn damage_pointer(&mut self, random: &mut Random) {
        let Some(last) = self.col_ptr.len().checked_sub(1) else {
            return;
        };
        let at = [0, last, random.below(last + 1)][random.below(3)];
        self.col_ptr[at] = match random.below(4) {
            0 => u32::MAX,
            1 => random.below(self.rows.len() + 2) as u32,
            2 => self.col_ptr[at].wrapping_add(1),
            _ => self.col_ptr[at].wrapping_sub(1),
        };
    }

    /// Two neighbouring rows change places.
    fn swap(&mut self, random: &mut Random) {
        let at = random.below(self.rows.len());
        self.rows.swap(at, at.saturating_sub(1));
    }

    /// The first `entries` places of a band below the diagonal: right for both kinds.
    pub fn band(n: u32, width: u32, entries: usize, random: &mut Random) -> Matrix {
        let mut matrix = Matrix {
            n,
            col_ptr: vec![0],
            rows: Vec::new(),
            values: doubles(random, entries),
        };
        for column in 0..n {
            let room = entries - matrix.rows.len();
            matrix
                .rows
                .extend((column..n.min(column + width)).take(room));
            matrix.col_ptr.push(matrix.rows.len() as u32);
        }
        assert_eq!(matrix.rows.len(), entries, "the band has room");
        matrix
    }

    /// At each limit and one past it, narrow and full columns, each whole and damaged.
    pub fn at_limits(kind: Kind, random: &mut Random, mut each: impl FnMut(&Matrix)) {
        let most = kind.entry_limit();
        let sizes = [
            (ROW_LIMIT, 70, most),
            (ROW_LIMIT, ROW_LIMIT, most),
            (ROW_LIMIT, ROW_LIMIT, ROW_LIMIT as usize),
            (ROW_LIMIT, 70, most + 1),
            (ROW_LIMIT + 1, 70, most),
            (ROW_LIMIT + 1, 70, most + 1),
            (ROW_LIMIT, 1, 0),
            (ROW_LIMIT + 1, 1, 0),
        ];
        for (n, width, entries) in sizes {
            let matrix = Matrix::band(n, width, entries, random);
            each(&matrix);
            for _ in 0..20 {
                let mut damaged = matrix.clone();
                damaged.damage(random);
                each(&damaged);
            }
        }
    }
}

impl Triplets {
    pub fn random(kind: Kind, random: &mut Random) -> Triplets {
        let n = random.below(MOST_ROWS + 1);
        let count = match n {
            0 => 0,
            _ => {
                let most = [4, n, 4 * n][random.below(3)];
                random.below(most + 1)
            }
        };
        // few places make many repeats
        let places = 1 + random.below(n.max(1));
        let mut triplets = Triplets::at_places(kind, n as u32, places, count, random);
        if random.chance(500) {
            triplets = triplets.sorted();
        }
        if random.chance(600) {
            for _ in 0..1 + random.below(2) {
                triplets.damage(random);
            }
        }
        triplets
    }

    /// `count` triplets of n, their rows and columns below `places`.
    fn at_places(kind: Kind, n: u32, places: usize, count: usize, random: &mut Random) -> Triplets {
        let mut index = || (0..count).map(|_| random.below(places) as u32).collect();
        let (mut rows, mut cols): (Vec<u32>, Vec<u32>) = (index(), index());
        if kind == Kind::Symmetric {
            for (row, col) in rows.iter_mut().zip(&mut cols) {
                (*row, *col) = ((*row).max(*col), (*row).min(*col));
            }
        }
        Triplets::lent(n, rows, cols, random)
    }

    /// The triplets, with values and lent slices of the right lengths.
    fn lent(n: u32, rows: Vec<u32>, cols: Vec<u32>, random: &mut Random) -> Triplets {
        let count = rows.len();
        Triplets {
            n,
            rows,
            cols,
            vals: doubles(random, count),
            col_ptr: contents(random, n as usize + 1),
            row_idx: contents(random, count),
            values: doubles(random, count),
            work: contents(random, 2 * n as usize + 2 + count),
        }
    }

    /// The same places by column, then by row; values and lent slices stay.
    fn sorted(&self) -> Triplets {
        let columns = self.cols.iter().copied();
        let mut places: Vec<(u32, u32)> = columns.zip(self.rows.iter().copied()).collect();
        places.sort_unstable();
        let (cols, rows) = places.into_iter().unzip();
        Triplets {
            rows,
            cols,
            ..self.clone()
        }
    }

    /// One change at one rule; now and then it leaves the triplets whole.
    fn damage(&mut self, random: &mut Random) {
        match random.below(20) {
            0 if random.chance(500) => self.n = near(random, self.n),
            0 => self.n = near(random, ROW_LIMIT),
            1 => other_length(random, &mut self.rows, 0),
            2 => other_length(random, &mut self.cols, 0),
            3 => other_length(random, &mut self.vals, 1.0),
            4 => other_length(random, &mut self.col_ptr, 7),
            5 => other_length(random, &mut self.row_idx, 7),
            6 => other_length(random, &mut self.values, 7.0),
            7 => other_length(random, &mut self.work, 7),
            8 => self.rows.fill(u32::MAX),
            9 => self.cols.fill(u32::MAX),
            place => {
                let at = random.below(self.rows.len().min(self.cols.len()).max(1));
                let (Some(row), Some(col)) = (self.rows.get_mut(at), self.cols.get_mut(at)) else {
                    return;
                };
                match place {
                    10..=12 => *row = near(random, self.n),
                    13..=15 => *col = near(random, self.n),
                    _ => std::mem::swap(row, col),
                }
            }
        }
    }

    /// At each limit and one past it, spread, on few places and in one column, each as it comes and sorted, whole and
    /// damaged.
    pub fn at_limits(kind: Kind, random: &mut Random, mut each: impl FnMut(Triplets)) {
        let (most, n) = (kind.entry_limit(), ROW_LIMIT);
        let sizes = [
            (n, n as usize, most),
            (n, 3, most),
            (n, n as usize, most + 1),
            (n + 1, n as usize, most),
            (n + 1, n as usize, most + 1),
            (n, 1, 0),
            (n + 1, 1, 0),
        ];
        let mut inputs: Vec<Triplets> = Vec::new();
        for (n, places, count) in sizes {
            inputs.push(Triplets::at_places(kind, n, places, count, random));
        }
        for count in [most, most + 1] {
            let rows = (0..count)
                .map(|_| random.below(n as usize) as u32)
                .collect();
            inputs.push(Triplets::lent(n, rows, vec![0; count], random));
        }
        let sorted: Vec<Triplets> = inputs.iter().map(Triplets::sorted).collect();
        for triplets in inputs.into_iter().chain(sorted) {
            for _ in 0..20 {
                let mut damaged = triplets.clone();
                damaged.damage(random);
                each(damaged);
            }
            each(triplets);
        }
    }
}
