//! The proved square root against Rust's, bit for bit, over the C interface; then its time.
//! Patterns: all exponents with chosen digits, subnormals, powers of two and their neighbours, squares and
//! squares plus and minus units in the last place, the hardest cases beside halfway roots, and random bits.
//! `cargo run --release --example roots [PATTERNS] [SEED]`, after `tools/build.sh suontarvi`.
use std::hint::black_box;
use std::time::Instant;

use suontarvi::Refusal;

struct Run {
    patterns: u64,
    differences: u64,
}

impl Run {
    // One pattern: the root's bits are those of Rust's; a NaN and a number below zero are refused with 11.
    fn one(&mut self, bits: u64) {
        let x = f64::from_bits(bits);
        let answer = suontarvi::sqrt(x).map(f64::to_bits);
        let expected = if x.is_nan() || x < 0.0 { Err(Refusal::NoRoot) } else { Ok(x.sqrt().to_bits()) };
        let same = answer == expected;
        self.patterns += 1;
        if !same {
            self.differences += 1;
            if self.differences < 20 {
                println!("differs at {bits:#018x}: {answer:x?}, expected {expected:x?}");
            }
        }
    }

    // A pattern and its neighbours, up to `width` units in the last place away.
    fn around(&mut self, bits: u64, width: u64) {
        for d in 0..=2 * width {
            self.one(bits.wrapping_add(d).wrapping_sub(width));
        }
    }
}

// xorshift64*
struct Random(u64);

impl Random {
    fn next(&mut self) -> u64 {
        self.0 ^= self.0 >> 12;
        self.0 ^= self.0 << 25;
        self.0 ^= self.0 >> 27;
        self.0.wrapping_mul(0x2545_F491_4F6C_DD1D)
    }
}

const DIGITS: u64 = (1 << 52) - 1;

// m * 2 ^ e for a whole m below 2 ^ 53 and a small e, where it is a double exactly
fn scaled(m: u64, e: i32) -> u64 {
    ((m as f64) * 2f64.powi(e)).to_bits()
}

// a root of c modulo 2 ^ 64, for a c that is 1 modulo 8
fn odd_root(c: u64) -> u64 {
    let mut root = 1u64;
    for k in 3..64 {
        if (root.wrapping_mul(root) ^ c) >> k & 1 == 1 {
            root = root.wrapping_add(1 << (k - 1));
        }
    }
    root
}

// how far 4 * x, scaled to 107 or 108 digits, is from the square of the nearest odd number: 0 where x's root is in
// the middle of two doubles
fn misses_by(bits: u64) -> u128 {
    let n = (((bits & DIGITS) | (1 << 52)) as u128) << (54 + (((bits >> 52) + 1073) & 1));
    let y = ((f64::from_bits(bits).sqrt().to_bits() & DIGITS) | (1 << 52)) as u128;
    n.abs_diff((2 * y + 1).pow(2)).min(n.abs_diff((2 * y - 1).pow(2)))
}

fn patterns(run: &mut Run, count: u64, seed: u64) {
    // any state but 0
    let mut r = Random(seed.wrapping_mul(0x9E37_79B9_7F4A_7C15) | 1);
    // every exponent and sign, with digits at the ends and in the middle
    for field in 0..4096u64 {
        for t in [0, 1, 2, 3, DIGITS / 2, DIGITS / 2 + 1, DIGITS - 1, DIGITS] {
            run.one((field << 52) | t);
        }
    }
    // powers of two and the subnormals at each length
    for k in 0..64 {
        run.around(1u64 << k, 50);
    }
    for k in 1..52 {
        for _ in 0..2000 {
            run.one((1u64 << k) | (r.next() & ((1 << k) - 1)));
        }
    }
    // every small number of units, and every small whole number
    for n in 0..300_000u64 {
        run.one(n);
        run.one((n as f64).to_bits());
    }
    // squares of 26 digits: the root is exact; and their neighbours
    for _ in 0..count / 50 {
        let a = (r.next() & 0x3FF_FFFF) | 0x200_0000;
        let e = (r.next() % 900) as i32 - 450;
        run.around(scaled(a * a, 2 * e), 3);
    }
    // The hardest: x whose exact root misses a middle of two doubles by least. The middle is h / 2 for an odd h of
    // 54 digits, and h * h differs by a small c from x's 53 digits with 54 or 55 zeros.
    for k in 0..count / 100 {
        let c = 8 * (k as i64 / 2) * (if k % 2 == 0 { 1 } else { -1 }) + 1;
        let root = odd_root(c as u64);
        for v in [root, root.wrapping_neg()] {
            let h = (v & ((1 << 53) - 1)) | (1 << 53);
            let n = ((h as i128 * h as i128 - c as i128) >> 54) as u64;
            let wide = n >> 53;
            if wide == 0 || n & 1 == 0 {
                let field = 2 * (r.next() % 1000) + 21 - wide;
                let hardest = (field << 52) | ((n >> wide) & DIGITS);
                assert!(misses_by(hardest) == c.unsigned_abs() as u128);
                run.around(hardest, 1);
            }
        }
    }
    // near the square of a double
    for _ in 0..count / 50 {
        let y = f64::from_bits(((r.next() % 1000 + 520) << 52) | (r.next() & DIGITS));
        run.around((y * y).to_bits(), 3);
    }
    // random: any bits; then above zero and finite
    while run.patterns < count {
        run.one(r.next());
        run.one(r.next() % (2047 << 52));
        run.one((1023 << 52) + r.next() % (2 << 52));
    }
}

// The least time of many rounds, so that other work on the machine does not count.
fn nanoseconds(name: &str, xs: &[f64], f: fn(f64) -> f64) {
    let mut independent = f64::MAX;
    let mut dependent = f64::MAX;
    for _ in 0..200 {
        let start = Instant::now();
        for &x in xs {
            black_box(f(black_box(x)));
        }
        independent = independent.min(start.elapsed().as_nanos() as f64 / xs.len() as f64);
        // each argument waits for the result before it
        let start = Instant::now();
        let mut last = 0u64;
        for &x in xs {
            last = f(black_box(f64::from_bits(x.to_bits() ^ (last & 1)))).to_bits();
        }
        black_box(last);
        dependent = dependent.min(start.elapsed().as_nanos() as f64 / xs.len() as f64);
    }
    println!("{name}: {independent:.2} ns a call independent, {dependent:.2} ns dependent");
}

#[inline(never)]
fn ours(x: f64) -> f64 {
    suontarvi::sqrt(x).unwrap_or(f64::NAN)
}

#[inline(never)]
fn rust(x: f64) -> f64 {
    x.sqrt()
}

fn main() {
    let number = |at: usize, default: u64| std::env::args().nth(at).map_or(default, |word| word.parse().unwrap());
    let mut run = Run { patterns: 0, differences: 0 };
    patterns(&mut run, number(1, 10_000_000), number(2, 1));
    println!("sqrt: {} inputs, {} differences", run.patterns, run.differences);
    let mut r = Random(42);
    let normal: Vec<f64> = (0..10_000).map(|_| f64::from_bits((1 << 52) + r.next() % (2046 << 52))).collect();
    let narrow: Vec<f64> = (0..10_000).map(|_| f64::from_bits((1023 << 52) + r.next() % (2 << 52))).collect();
    let subnormal: Vec<f64> = (0..10_000).map(|_| f64::from_bits(1 + r.next() % DIGITS)).collect();
    for (name, xs) in [("all exponents", &normal), ("from 1 to 4", &narrow), ("subnormal", &subnormal)] {
        nanoseconds(&format!("{name}, proved"), xs, ours);
        nanoseconds(&format!("{name}, Rust"), xs, rust);
    }
    if run.differences != 0 {
        std::process::exit(1);
    }
}
