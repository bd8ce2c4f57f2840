//! `validate` and `from_triplets` of both kinds: the original against the rules
//! 3 to 7 of SPECIFICATION 3.4, restated here in the order of 3.5.

use oracle::random::Random;
use oracle::{General, Symmetric};

const ONE: f64 = 1.0;

struct Columns {
    n: usize,
    col_ptr: Vec<usize>,
    row_idx: Vec<usize>,
    values: Vec<f64>,
}

impl Columns {
    fn new(n: usize, col_ptr: &[usize], row_idx: &[usize]) -> Columns {
        Columns {
            n,
            col_ptr: col_ptr.to_vec(),
            row_idx: row_idx.to_vec(),
            values: vec![ONE; row_idx.len()],
        }
    }

    fn symmetric(&self) -> Result<(), u32> {
        let (col_ptr, row_idx, values) = self.parts();
        Symmetric::new(self.n, col_ptr, row_idx, values).validate()
    }

    fn general(&self) -> Result<(), u32> {
        let (col_ptr, row_idx, values) = self.parts();
        General::new(self.n, col_ptr, row_idx, values).validate()
    }

    fn parts(&self) -> (Vec<usize>, Vec<usize>, Vec<f64>) {
        (
            self.col_ptr.clone(),
            self.row_idx.clone(),
            self.values.clone(),
        )
    }

    /// Refusals 3 and 4, which both kinds share.
    fn frame(&self) -> Result<(), u32> {
        let entries = self.row_idx.len();
        if self.col_ptr.len() != self.n + 1 || self.values.len() != entries {
            return Err(3);
        }
        let falls = self.col_ptr.windows(2).any(|pair| pair[1] < pair[0]);
        if self.col_ptr[0] != 0 || self.col_ptr[self.n] != entries || falls {
            return Err(4);
        }
        Ok(())
    }

    fn column(&self, j: usize) -> &[usize] {
        &self.row_idx[self.col_ptr[j]..self.col_ptr[j + 1]]
    }

    fn symmetric_by_01(&self) -> Result<(), u32> {
        self.frame()?;
        for j in 0..self.n {
            for &row in self.column(j) {
                if row >= self.n {
                    return Err(5);
                }
                if row < j {
                    return Err(6);
                }
            }
            if self.column(j).windows(2).any(|pair| pair[1] <= pair[0]) {
                return Err(7);
            }
        }
        Ok(())
    }

    fn general_by_01(&self) -> Result<(), u32> {
        self.frame()?;
        for j in 0..self.n {
            let mut above = None;
            for &row in self.column(j) {
                if row >= self.n {
                    return Err(5);
                }
                if above.is_some_and(|above| row <= above) {
                    return Err(7);
                }
                above = Some(row);
            }
        }
        Ok(())
    }

    /// One random change, which may leave the matrix whole.
    fn damage(&mut self, random: &mut Random) {
        match random.below(5) {
            0 => {
                let at = random.below(self.col_ptr.len());
                self.col_ptr[at] = random.below(self.row_idx.len() + 2);
            }
            1 | 2 if !self.row_idx.is_empty() => {
                let at = random.below(self.row_idx.len());
                self.row_idx[at] = random.below(self.n + 2);
            }
            3 if random.chance(300) => self.values.push(ONE),
            4 if random.chance(300) => self.col_ptr.push(self.row_idx.len()),
            _ => {}
        }
    }
}

#[test]
fn each_kind_of_damage_has_its_number() {
    let whole = Columns::new(2, &[0, 2, 3], &[0, 1, 1]);
    assert_eq!((whole.symmetric(), whole.general()), (Ok(()), Ok(())));
    let mut values_short = Columns::new(1, &[0, 1], &[0]);
    values_short.values.clear();
    let cases = [
        (Columns::new(2, &[0, 1], &[0]), 3, 3),
        (values_short, 3, 3),
        (Columns::new(1, &[1, 1], &[0]), 4, 4),
        (Columns::new(1, &[0, 0], &[0]), 4, 4),
        (Columns::new(2, &[0, 2, 1], &[0]), 4, 4),
        (Columns::new(1, &[0, 1], &[1]), 5, 5),
        (Columns::new(2, &[0, 2, 2], &[1, 0]), 7, 7),
        (Columns::new(2, &[0, 2, 2], &[0, 0]), 7, 7),
        // The general kind meets the fall before the index, the symmetric one
        // tests all indices of a column first.
        (Columns::new(2, &[0, 3, 3], &[1, 0, 2]), 5, 7),
    ];
    for (matrix, symmetric, general) in cases {
        assert_eq!(matrix.symmetric(), Err(symmetric));
        assert_eq!(matrix.general(), Err(general));
    }
    let above_diagonal = Columns::new(2, &[0, 0, 1], &[0]);
    assert_eq!(above_diagonal.symmetric(), Err(6));
    assert_eq!(above_diagonal.general(), Ok(()));
}

#[test]
fn validate_refuses_in_the_order_of_01() {
    let mut random = Random::new(1);
    let mut seen = [0; 8];
    for _ in 0..20_000 {
        let n = random.below(6);
        let lower = random.chance(500);
        let (col_ptr, row_idx) = match lower {
            true => random.lower_pattern(n, 600),
            false => random.pattern(n, 500),
        };
        let mut matrix = Columns::new(n, &col_ptr, &row_idx);
        for _ in 0..random.below(4) {
            matrix.damage(&mut random);
        }
        let verdict = matrix.symmetric();
        assert_eq!(verdict, matrix.symmetric_by_01());
        assert_eq!(matrix.general(), matrix.general_by_01());
        seen[verdict.err().unwrap_or(0) as usize] += 1;
    }
    let met = |number: usize| seen[number] > 100;
    assert!(met(0) && (3..=7).all(met), "{seen:?}");
}

#[test]
fn triplets_are_refused_in_the_order_of_01() {
    let refused = |n, rows: &[usize], cols: &[usize], values: &[f64]| {
        let symmetric = Symmetric::from_triplets(n, rows, cols, values).err();
        (
            symmetric,
            General::from_triplets(n, rows, cols, values).err(),
        )
    };
    assert_eq!(refused(1, &[0], &[0], &[]), (Some(3), Some(3)));
    assert_eq!(refused(1, &[0, 0], &[0], &[ONE]), (Some(3), Some(3)));
    assert_eq!(refused(1, &[1], &[0], &[ONE]), (Some(5), Some(5)));
    assert_eq!(refused(1, &[0], &[1], &[ONE]), (Some(5), Some(5)));
    assert_eq!(refused(2, &[0], &[1], &[ONE]), (Some(6), None));
    assert_eq!(
        refused(2, &[0, 2], &[1, 0], &[ONE, ONE]),
        (Some(6), Some(5))
    );
    assert_eq!(refused(0, &[], &[], &[]), (None, None));
}

/// Each place's values are summed from 0.0 in the order given.
#[test]
fn repeated_triplets_are_summed_in_input_order() {
    let rows = [1, 0, 1, 1, 2];
    let cols = [0, 0, 0, 0, 2];
    let values = [1.0, -0.0, 2f64.powi(60), -2f64.powi(60), f64::NAN];
    let matrix = General::from_triplets(3, &rows, &cols, &values).unwrap();
    assert_eq!(matrix.col_ptr(), [0, 2, 2, 3]);
    assert_eq!(matrix.row_idx(), [0, 1, 2]);
    // 1 is lost beside 2^60; a lone -0.0 becomes 0.0 + -0.0 = 0.0.
    assert_eq!(matrix.values()[0].to_bits(), 0.0f64.to_bits());
    assert_eq!(matrix.values()[1], 0.0);
    assert!(matrix.values()[2].is_nan());
    let other = [2.0f64.powi(60), -0.0, -2f64.powi(60), 1.0, f64::NAN];
    let matrix = Symmetric::from_triplets(3, &rows, &cols, &other).unwrap();
    assert_eq!(matrix.values()[1], 1.0);
}
