//! The whole-number logarithm against its rules restated in plain Rust: the method step by step, and the bounds of the
//! exact power, between two products that are rounded down and up.

use crate::differs;
use crate::tally::Tally;
use oracle::random::Random;
use std::fmt::Debug;

/// Bits of a double behind its leading one.
const DIGITS: u64 = (1 << 52) - 1;

const SQUARINGS: usize = 16;

#[derive(Debug)]
struct Input {
    x: u64,
    p: Vec<i32>,
}

pub fn run(count: u64, random: &mut Random) -> bool {
    let mut tally = Tally::new("whole_log");
    for x in chosen() {
        one(&mut tally, Input { x, p: vec![7] });
    }
    for _ in 0..count {
        let input = Input {
            x: bits(random),
            p: slice(random),
        };
        one(&mut tally, input);
    }
    tally.end()
}

/// Every exponent and sign with digits at the ends and in the middle, and both neighbours of every power of two.
fn chosen() -> Vec<u64> {
    let mut chosen: Vec<u64> = (0..64).map(|k| 1 << k).collect();
    for field in 0..4096 {
        for digits in [0, 1, 2, DIGITS / 2, DIGITS / 2 + 1, DIGITS - 1, DIGITS] {
            chosen.push((field << 52) | digits);
        }
    }
    chosen.extend((0..20_000).map(|n| (n as f64).to_bits()));
    chosen
}

/// Any bits; finite ones; subnormals of every length; near a power of two; whole numbers; zeros, infinities and NaNs.
fn bits(random: &mut Random) -> u64 {
    let sign = random.bits() & (1 << 63);
    let k = random.below(52);
    let near = random.below(9) as u64;
    match random.below(7) {
        0 => random.bits(),
        1 => sign | random.bits() % (2047 << 52),
        2 => sign | 1 << k | random.bits() & ((1 << k) - 1),
        3 => sign | (((1 + random.below(2046) as u64) << 52) + near).saturating_sub(4),
        4 => sign | ((random.bits() >> k) as f64).to_bits(),
        5 => sign | ((1023 << 52) + random.bits() % (1 << 52)),
        _ if random.chance(900) => random.bits(),
        _ => sign | [0, 2047 << 52, 2047 << 52 | random.bits() & DIGITS][random.below(3)],
    }
}

/// One place; sometimes another length.
fn slice(random: &mut Random) -> Vec<i32> {
    let places = match random.chance(10) {
        true => random.below(4),
        false => 1,
    };
    (0..places).map(|_| random.bits() as i32).collect()
}

fn one(tally: &mut Tally, input: Input) {
    let mut p = input.p.clone();
    let got = suontarvi::raw::whole_log(f64::from_bits(input.x), &mut p);
    let magnitude = input.x & !(1 << 63);
    let (number, left) = match () {
        _ if input.p.len() != 1 => (3, input.p.clone()),
        _ if magnitude == 0 || magnitude >= 2047 << 52 => (9, input.p.clone()),
        _ => (0, vec![log(magnitude)]),
    };
    let compared = differs::answer(&got, number)
        .and_then(|()| differs::same("p", &p, &left))
        .and_then(|()| {
            if number == 0 {
                bounds(magnitude, p[0])
            } else {
                Ok(())
            }
        });
    tally.add(number, compared, &input as &dyn Debug);
}

/// The digits of a finite magnitude from the leading one on, in 64 bits, and the exponent of that one.
pub fn normalised(magnitude: u64) -> (u64, i64) {
    let (digits, least) = match magnitude >> 52 {
        0 => (magnitude, -1074),
        field => (magnitude & DIGITS | 1 << 52, field as i64 - 1075),
    };
    let zeros = digits.leading_zeros();
    (digits << zeros, least + 63 - zeros as i64)
}

/// The method.
pub fn log(magnitude: u64) -> i32 {
    let (digits, mut p) = normalised(magnitude);
    let mut m = digits >> 32;
    for _ in 0..SQUARINGS {
        let square = m * m;
        let digit = square >> 63;
        m = square >> (31 + digit);
        p = 2 * p + digit as i64;
    }
    p as i32
}

/// A number from 2^63 up, times a power of two whose exponent is that of the number's leading digit.
struct Power {
    digits: u64,
    exponent: i64,
}

impl Power {
    /// The square, of which the digits behind the first 64 are dropped or, if there are any, count as one more.
    fn squared(&self, up: bool) -> Power {
        let square = self.digits as u128 * self.digits as u128;
        let wide = (square >> 127) as u32;
        let digits = (square >> (63 + wide)) as u64;
        let rest = square & ((1 << (63 + wide)) - 1);
        let exponent = 2 * self.exponent + wide as i64;
        match digits.checked_add((up && rest != 0) as u64) {
            Some(digits) => Power { digits, exponent },
            None => Power {
                digits: 1 << 63,
                exponent: exponent + 1,
            },
        }
    }
}

/// 2^p is at most the magnitude to the power 65,536, which is below 2^(p+2).
fn bounds(magnitude: u64, p: i32) -> Result<(), String> {
    let (digits, exponent) = normalised(magnitude);
    let mut low = Power { digits, exponent };
    let mut high = Power { digits, exponent };
    for _ in 0..SQUARINGS {
        low = low.squared(false);
        high = high.squared(true);
    }
    match low.exponent >= p as i64 && high.exponent < p as i64 + 2 {
        true => Ok(()),
        false => Err(format!(
            "{p} is out of bounds: the exact power is between 2^{} and 2^{}",
            low.exponent,
            high.exponent + 1
        )),
    }
}
