//! The ranges of costs and logs in a graph of n columns, by exact integers, and the doubles around their ends.

/// n times a cost is below two to this, n times the size of a log below two to that.
const COST_POWER: u32 = 48;
const LOG_POWER: u32 = 47;

/// Twos by which the least subnormal is below one.
const LEAST: u32 = 1074;

/// Whether 0 <= cost and n * cost < 2^48.
pub fn cost_fits(n: u32, cost: f64) -> bool {
    cost >= 0.0 && times_below(COST_POWER, n, cost)
}

/// Whether n * |log| < 2^47.
pub fn log_fits(n: u32, log: f64) -> bool {
    times_below(LOG_POWER, n, log)
}

/// The largest double that is a cost.
pub fn last_cost(n: u32) -> f64 {
    last_below(COST_POWER, n)
}

/// The largest double that is a log.
pub fn last_log(n: u32) -> f64 {
    last_below(LOG_POWER, n)
}

/// The largest whole number that is a cost.
pub fn last_whole_cost(n: u32) -> u64 {
    ((1 << COST_POWER) - 1) / u64::from(n.max(1))
}

/// The next double of a positive one.
pub fn above(x: f64) -> f64 {
    f64::from_bits(x.to_bits() + 1)
}

/// The n whose limits are tried one by one: the small ones, and from there on every eleventh.
pub fn sizes() -> impl Iterator<Item = u32> {
    (1..=100).chain((101..4096).step_by(11)).chain([4095, 4096])
}

/// Whether n times the size of x is below 2^power: the digits of the product are counted, no product is rounded.
fn times_below(power: u32, n: u32, x: f64) -> bool {
    let bits = x.to_bits() & (u64::MAX >> 1);
    let (digits, twos) = match bits >> 52 {
        0 => (bits, 0),
        field => (bits % (1 << 52) + (1 << 52), field as u32 - 1),
    };
    let product = u128::from(n) * u128::from(digits);
    x.is_finite() && (product == 0 || u128::BITS - product.leading_zeros() + twos <= power + LEAST)
}

/// The largest double that n times is below 2^power, beside the rounded quotient.
fn last_below(power: u32, n: u32) -> f64 {
    let quotient = (1u64 << power) as f64 / f64::from(n.max(1));
    let near =
        [-2i64, -1, 0, 1].map(|step| f64::from_bits(quotient.to_bits().wrapping_add_signed(step)));
    let fits = |&x: &f64| times_below(power, n.max(1), x);
    let last = near
        .into_iter()
        .rfind(fits)
        .expect("the quotient is rounded by less than a step");
    assert!(!fits(&above(last)), "the next double does not fit");
    last
}
