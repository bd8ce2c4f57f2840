//! Natural logarithms by integers, to measure what `ln` rounds: in units of 2^-64, with a bound on the error.

/// ln 2 in units of 2^-96, rounded down.
const LN_2: i128 = 0xB172_17F7_D1CF_79AB_C9E3_B398;

/// The error of [`ln`] is below this: 24 terms, each cut by less than 2 units, doubled, and two more.
pub const ERROR: i128 = 128;

/// The logarithm of the magnitude of a number that is finite and not zero, in units of 2^-64.
pub fn ln(x: f64) -> i128 {
    let (digits, exponent) = split(x);
    let one = 1 << 52;
    // ln of 1 to 2 is twice the area tangent of this, which is at most a third
    let t = ((digits - one) << 64) / (digits + one);
    let square = (t * t) >> 64;
    let (mut power, mut sum) = (t, t);
    for odd in (3..51).step_by(2) {
        power = (power * square) >> 64;
        sum += power / odd;
    }
    2 * sum + ((exponent * LN_2) >> 32)
}

/// The magnitude as a number of units of 2^-52, from 2^52 to 2^53, times 2 to this power.
fn split(x: f64) -> (i128, i128) {
    let bits = x.abs().to_bits();
    let (digits, field) = (bits & ((1 << 52) - 1), (bits >> 52) as i32);
    match field {
        0 => {
            let shift = digits.leading_zeros().saturating_sub(11).min(52);
            (i128::from(digits << shift), -1022 - i128::from(shift))
        }
        _ => (i128::from(digits | 1 << 52), i128::from(field - 1023)),
    }
}

/// A number below 2^62 in size, in units of 2^-64, rounded down.
pub fn units(x: f64) -> i128 {
    (x * 2f64.powi(64)).floor() as i128
}

#[cfg(test)]
mod tests {
    use super::*;

    /// Each with its logarithm in units of 2^-64 to the nearest, by decimal numbers of 70 digits.
    const KNOWN: [(f64, i128); 12] = [
        (1.0, 0),
        (1.0000000000000002, 4_096),
        (1.9999999999999998, 12_786_308_645_202_653_612),
        (2.0, 12_786_308_645_202_655_660),
        (3.0, 20_265_819_725_292_939_639),
        (0.1, -42_475_197_918_399_867_996),
        (0.9999999999999999, -2_048),
        (1e308, 13_082_360_958_867_159_658_258),
        (1.7976931348623157e308, 13_093_180_052_687_519_393_576),
        (2.2250738585072014e-308, -13_067_607_435_397_114_084_304),
        (5e-324, -13_732_495_484_947_652_178_613),
        (7.3e-311, -13_173_116_743_271_263_449_749),
    ];

    #[test]
    fn as_known() {
        for (x, known) in KNOWN {
            assert!((ln(x) - known).abs() < ERROR, "{x}: {} and {known}", ln(x));
            assert_eq!(ln(-x), ln(x));
        }
    }

    /// `ln` of the host is within a unit in its last place, which shows on both sides.
    #[test]
    fn near_the_hosts() {
        let mut x: f64 = 5e-324;
        while x < 1e308 {
            let host = x.ln();
            let last = f64::from_bits(host.abs().to_bits() + 1) - host.abs();
            assert!((ln(x) - units(host)).abs() <= units(last) + ERROR + 1, "{x}");
            x *= 1.37 + x.fract() / 9.0 + f64::MIN_POSITIVE;
            x = x.max(f64::from_bits(x.to_bits() + 3));
        }
    }

    #[test]
    fn units_are_rounded_down() {
        assert_eq!((units(1.0), units(-1.0), units(0.0)), (1 << 64, -(1 << 64), 0));
        assert_eq!((units(5e-324), units(-5e-324), units(-0.75)), (0, -1, -(3 << 62)));
    }
}
