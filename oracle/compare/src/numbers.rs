//! Random numbers of the kinds that matter.

use oracle::random::Random;

const ODD: [u64; 12] = [
    0x7FF8_0000_0000_0001, // NaN of other bits than the stored one
    0xFFF8_0000_0000_0000,
    0x7FF0_0000_0000_0001, // a signalling NaN
    0xFFFF_FFFF_FFFF_FFFF,
    0x7FF0_0000_0000_0000, // infinities
    0xFFF0_0000_0000_0000,
    0x8000_0000_0000_0000, // -0.0
    0x0000_0000_0000_0001, // the least subnormals
    0x8000_0000_0000_0001,
    0x000F_FFFF_FFFF_FFFF, // the largest
    0x7FEF_FFFF_FFFF_FFFF, // the largest finite, whose sums pass over
    0xFFEF_FFFF_FFFF_FFFF,
];

/// Doubles of one mood: small whole ones, ones whose sums round, odd ones, any bits.
pub fn doubles(random: &mut Random, count: usize) -> Vec<f64> {
    let mood = random.below(4);
    let odd = |random: &mut Random| f64::from_bits(ODD[random.below(ODD.len())]);
    let double = |random: &mut Random| match mood {
        0 => random.below(9) as f64 - 4.0,
        1 => random.spread(60),
        2 if random.chance(300) => odd(random),
        2 => random.spread(1074),
        _ => f64::from_bits(random.bits()),
    };
    (0..count).map(|_| double(random)).collect()
}

/// What a lent slice may hold before the call: small, u32::MAX, anything.
pub fn contents(random: &mut Random, count: usize) -> Vec<u32> {
    let mood = random.below(3);
    let place = |random: &mut Random| match mood {
        0 => random.below(5) as u32,
        1 => u32::MAX,
        _ => random.bits() as u32,
    };
    (0..count).map(|_| place(random)).collect()
}

/// An index at or above n, or just below it.
pub fn near(random: &mut Random, n: u32) -> u32 {
    match random.below(4) {
        0 => n,
        1 => n.wrapping_sub(1),
        2 => u32::MAX,
        _ => n.wrapping_add(random.below(9) as u32),
    }
}

/// A length beside the right one.
pub fn other_length<T: Clone>(random: &mut Random, slice: &mut Vec<T>, filler: T) {
    match random.below(4) {
        0 => slice.clear(),
        1 => slice.truncate(slice.len().saturating_sub(1)),
        _ => slice.push(filler),
    }
}
