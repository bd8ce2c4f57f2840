//! Matches and files: random, in other orders, and damaged at every rule.

use super::expected::{Match, Record, MOST, NONE};
use crate::numbers::{doubles, near, other_length};
use oracle::random::Random;

/// A match of n columns; rows may repeat.
pub fn random_match(n: usize, random: &mut Random) -> Match {
    let free = random.below(1001);
    let row = |random: &mut Random| match random.chance(free) {
        true => NONE,
        false => random.below(n) as u32,
    };
    Match {
        perm: (0..n).map(|_| row(random)).collect(),
        u: numbers(n, random),
        v: numbers(n, random),
        cmax: numbers(n, random),
    }
}

/// Bits of doubles of one mood, some of them +0.0, some -0.0.
fn numbers(n: usize, random: &mut Random) -> Vec<u64> {
    let zero = random.below(1001);
    let bits = doubles(random, n).into_iter().map(f64::to_bits);
    let number = |bits: u64| match random.chance(zero) {
        true if random.chance(100) => 1 << 63,
        true => 0,
        false => bits,
    };
    bits.map(number).collect()
}

pub fn columns(random: &mut Random) -> usize {
    match random.below(400) {
        0 => MOST,
        1..=3 => 250 + random.below(20),
        _ => random.below(9),
    }
}

/// What `write_sheet` is lent beside the match: n, the matched count, the lengths of the two slices it writes.
pub struct Ask {
    pub n: u32,
    pub matched: u32,
    pub room: usize,
    pub used: usize,
}

impl Ask {
    pub fn new(of: &Match) -> Ask {
        let n = of.perm.len();
        Ask {
            n: n as u32,
            matched: of.matched(),
            room: 2 + 29 * n,
            used: 1,
        }
    }

    /// Breaks a rule of writing, or comes near it.
    pub fn damage(&mut self, of: &mut Match, random: &mut Random) {
        let n = of.perm.len();
        match random.below(7) {
            0 => self.matched = near(random, self.matched),
            1 if n > 0 => of.perm[random.below(n)] = near(random, self.n),
            // a row that is below n once it is narrowed
            2 if n > 0 => of.perm[random.below(n)] = 65_536 + random.below(n) as u32,
            3 => self.room = (self.room + random.below(3)).saturating_sub(1),
            4 => self.used = random.below(3),
            5 => self.n = [MOST as u32 + 1, 65_536 + self.n, u32::MAX, self.n + 1][random.below(4)],
            _ => damage_length(of, random),
        }
    }
}

/// One length becomes another.
pub fn damage_length(of: &mut Match, random: &mut Random) {
    match random.below(4) {
        0 => other_length(random, &mut of.perm, 0),
        1 => other_length(random, &mut of.u, 7),
        2 => other_length(random, &mut of.v, 7),
        _ => other_length(random, &mut of.cmax, 7),
    }
}

pub fn shuffle(records: &mut [Record], random: &mut Random) {
    for at in (1..records.len()).rev() {
        records.swap(at, random.below(at + 1));
    }
}

/// Breaks a rule of records, or comes near it.
pub fn damage_records(records: &mut Vec<Record>, n: usize, random: &mut Random) {
    let at = random.below(records.len() + 1);
    let index = |random: &mut Random| near(random, n as u32) as u16;
    let Some(record) = records.get_mut(at) else {
        records.push(Record {
            patch: random.below(n + 1) as u16,
            ..Record::default()
        });
        return;
    };
    match random.below(8) {
        0 => record.unknown = 16 << random.below(4),
        1 => record.patch = index(random),
        2 => record.row = Some(index(random)),
        3 => record.numbers[random.below(3)] = Some(0),
        4 => record.numbers[random.below(3)] = Some(1 << 63),
        5 => {
            *record = Record {
                patch: record.patch,
                ..Record::default()
            }
        }
        6 => {
            let again = record.clone();
            records.insert(random.below(records.len() + 1), again);
        }
        _ => shuffle(records, random),
    }
}

/// Damages bytes: one changed, the end cut or longer, another n.
pub fn damage_bytes(bytes: &mut Vec<u8>, random: &mut Random) {
    let length = bytes.len();
    match random.below(4) {
        0 if length > 0 => bytes[random.below(length)] = random.bits() as u8,
        1 => bytes.truncate(random.below(length + 1)),
        2 => (0..=random.below(3)).for_each(|_| bytes.push(random.below(4) as u8)),
        _ if length > 1 => bytes[1] = [0, 1, 16, 17, 255][random.below(5)],
        _ => bytes.clear(),
    }
}
