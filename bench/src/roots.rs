//! The square root beside the hardware's, which is one instruction.

use crate::timing::Times;
use oracle::random::Random;
use std::hint::black_box;

const ROOTS: usize = 10_000;

pub fn run(times: &mut Times) -> bool {
    let mut random = Random::new(1);
    let kinds: [(&str, u64, u64); 3] = [
        ("all exponents", 1 << 52, 2046 << 52),
        ("from 1 to 4", 1023 << 52, 2 << 52),
        ("subnormal", 1, (1 << 52) - 1),
    ];
    for (kind, first, count) in kinds {
        let number = |_| f64::from_bits(first + random.bits() % count);
        let numbers: Vec<f64> = (0..ROOTS).map(number).collect();
        times.add(
            "sqrt",
            &format!("{ROOTS} roots, {kind}"),
            || each(&numbers, |x| suontarvi::sqrt(x).unwrap_or(f64::NAN)),
            || each(&numbers, f64::sqrt),
        );
    }
    true
}

fn each(numbers: &[f64], root: impl Fn(f64) -> f64) {
    for &number in numbers {
        black_box(root(black_box(number)));
    }
}
