//! A small generator for tests and comparison drivers: the same seed gives the
//! same numbers on every machine.

/// SplitMix64 (Steele, Lea and Flood, 2014).
pub struct Random(u64);

impl Random {
    pub fn new(seed: u64) -> Random {
        Random(seed)
    }

    pub fn bits(&mut self) -> u64 {
        self.0 = self.0.wrapping_add(0x9E37_79B9_7F4A_7C15);
        let mut z = self.0;
        z = (z ^ (z >> 30)).wrapping_mul(0xBF58_476D_1CE4_E5B9);
        z = (z ^ (z >> 27)).wrapping_mul(0x94D0_49BB_1331_11EB);
        z ^ (z >> 31)
    }

    /// Below the bound, which is not 0; its slight bias does not matter here.
    pub fn below(&mut self, bound: usize) -> usize {
        (self.bits() % bound as u64) as usize
    }

    /// True in the given share of a thousand calls.
    pub fn chance(&mut self, per_mille: usize) -> bool {
        self.below(1000) < per_mille
    }

    /// At least 0 and below 1.
    pub fn unit(&mut self) -> f64 {
        (self.bits() >> 11) as f64 / (1u64 << 53) as f64
    }

    /// Either sign, the magnitude's exponent even over -limit..limit.
    pub fn spread(&mut self, limit: i32) -> f64 {
        let exponent = self.below(2 * limit as usize) as i32 - limit;
        let magnitude = (1.0 + self.unit()) * 2f64.powi(exponent);
        if self.chance(500) {
            -magnitude
        } else {
            magnitude
        }
    }

    /// Pointers and rising rows of a random square pattern: each place is an
    /// entry with the given chance.
    pub fn pattern(&mut self, n: usize, per_mille: usize) -> (Vec<usize>, Vec<usize>) {
        self.pattern_from(n, per_mille, |_| 0)
    }

    /// The same of a symmetric matrix: only places on or below the diagonal.
    pub fn lower_pattern(&mut self, n: usize, per_mille: usize) -> (Vec<usize>, Vec<usize>) {
        self.pattern_from(n, per_mille, |column| column)
    }

    fn pattern_from(
        &mut self,
        n: usize,
        per_mille: usize,
        first_row: impl Fn(usize) -> usize,
    ) -> (Vec<usize>, Vec<usize>) {
        let mut col_ptr = vec![0];
        let mut row_idx = Vec::new();
        for column in 0..n {
            row_idx.extend((first_row(column)..n).filter(|_| self.chance(per_mille)));
            col_ptr.push(row_idx.len());
        }
        (col_ptr, row_idx)
    }
}
