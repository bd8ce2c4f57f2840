//! Exact sums of numbers that are 0 or more, in units of 2^-1074, in which every double is whole.

/// 1,152 digits of two, the low word first: the largest cost has 1,122, the largest gap 1,138.
#[derive(Clone, Copy, PartialEq, Eq, Debug)]
pub struct Units([u64; 18]);

impl Units {
    pub const ZERO: Units = Units([0; 18]);

    /// number · 2^shift units.
    fn shifted(number: u64, shift: usize) -> Units {
        let wide = u128::from(number) << (shift % 64);
        let mut words = [0; 18];
        words[shift / 64] = wide as u64;
        if shift / 64 + 1 < words.len() {
            words[shift / 64 + 1] = (wide >> 64) as u64;
        }
        Units(words)
    }

    /// A cost.
    pub fn of(cost: f64) -> Units {
        let bits = cost.abs().to_bits();
        let (digits, scale) = (bits & ((1 << 52) - 1), (bits >> 52) as usize);
        match scale {
            0 => Units::shifted(digits, 0),
            _ => Units::shifted(digits | 1 << 52, scale - 1),
        }
    }

    /// So many steps of 2^-digits.
    pub fn steps(steps: u64, digits: u32) -> Units {
        Units::shifted(steps, 1074 - digits as usize)
    }

    pub fn plus(self, other: Units) -> Units {
        let (mut sum, mut carry) = (self, false);
        for (word, add) in sum.0.iter_mut().zip(other.0) {
            let (one, first) = word.overflowing_add(add);
            let (two, second) = one.overflowing_add(carry.into());
            (*word, carry) = (two, first | second);
        }
        assert!(!carry, "a sum beyond 1,152 digits");
        sum
    }

    pub fn at_most(&self, other: &Units) -> bool {
        self.0.iter().rev().le(other.0.iter().rev())
    }
}
