//! The whole-number logarithm beside the same rules in plain Rust, beside the same with wide products, and beside
//! Rust's `ln`, whose result is not whole.

use crate::timing::Times;
use oracle::random::Random;
use std::hint::black_box;

const LOGS: usize = 10_000;

pub fn run(times: &mut Times) -> bool {
    let mut random = Random::new(1);
    let kinds: [(&str, u64, u64); 3] = [
        ("all exponents", 1 << 52, 2046 << 52),
        ("from 1 to 4", 1023 << 52, 2 << 52),
        ("subnormal", 1, (1 << 52) - 1),
    ];
    for (kind, first, count) in kinds {
        let number = |_| f64::from_bits(first + random.bits() % count);
        let numbers: Vec<f64> = (0..LOGS).map(number).collect();
        let input = format!("{LOGS} logarithms, {kind}");
        let ours = || each(&numbers, |x| suontarvi::whole_log(x).unwrap_or(0));
        times.add("whole_log", &input, ours, || {
            each(&numbers, |x| plain(x).unwrap_or(0))
        });
        times.add("whole_log, beside the wide product", &input, ours, || {
            each(&numbers, |x| wide(x).unwrap_or(0))
        });
        times.add("whole_log, beside ln", &input, ours, || {
            each(&numbers, f64::ln)
        });
    }
    true
}

/// The rules: 32 leading digits, squared sixteen times, from halves of sixteen digits.
#[inline(never)]
pub fn plain(x: f64) -> Option<i32> {
    log(x, |m| {
        let (high, low) = ((m >> 16) as u32, m as u32 & 0xffff);
        let [upper, middle, lower] = [high * high, high * low, low * low].map(u64::from);
        (upper << 32) + (middle << 17) + lower
    })
}

/// The same with products of 64 digits.
#[inline(never)]
fn wide(x: f64) -> Option<i32> {
    log(x, |m| m * m)
}

fn log(x: f64, square: impl Fn(u64) -> u64) -> Option<i32> {
    let magnitude = x.to_bits() & !(1 << 63);
    if magnitude == 0 || magnitude >= 2047 << 52 {
        return None;
    }
    let (digits, least) = match magnitude >> 52 {
        0 => (magnitude, -1074),
        field => (magnitude & ((1 << 52) - 1) | 1 << 52, field as i64 - 1075),
    };
    let zeros = digits.leading_zeros();
    let mut m = (digits << zeros) >> 32;
    let mut p = least + 63 - zeros as i64;
    for _ in 0..16 {
        let square = square(m);
        let digit = square >> 63;
        m = square >> (31 + digit);
        p = 2 * p + digit as i64;
    }
    Some(p as i32)
}

fn each<T>(numbers: &[f64], log: impl Fn(f64) -> T) {
    for &number in numbers {
        black_box(log(black_box(number)));
    }
}
