//! Sheet files beside a plain Rust version of the same rules, lent the same slices: the writer and both readers.

use crate::timing::Times;
use oracle::random::Random;
use suontarvi::{raw, sheets};

const SIZES: [usize; 3] = [16, 256, 4096];

const NONE: u32 = u32::MAX;

/// A match, or the slices that one is read into.
#[derive(Clone, PartialEq)]
struct Match {
    perm: Vec<u32>,
    u: Vec<f64>,
    v: Vec<f64>,
    cmax: Vec<f64>,
}

pub fn run(times: &mut Times) -> bool {
    let mut random = Random::new(1);
    for n in SIZES {
        let of = Match::new(n, &mut random);
        let room = 2 + 29 * n;
        let (mut ours, mut plain) = (vec![0; room], vec![0; room]);
        let used = of.proved_write(&mut ours);
        assert_eq!(Ok(used), of.plain_write(&mut plain));
        assert!(ours == plain);
        let file = ours[..used].to_vec();
        let name = format!("n {n}, {used} bytes");
        times.add(
            "write_sheet",
            &name,
            || of.proved_write(&mut ours),
            || of.plain_write(&mut plain),
        );
        for (call, canonical) in [("read_sheet", false), ("read_canonical_sheet", true)] {
            let (mut ours, mut plain) = (of.clone(), of.clone());
            assert_eq!(
                ours.proved_read(&file, canonical),
                plain.plain_read(&file, canonical)
            );
            assert!(ours == of && plain == of);
            times.add(
                call,
                &name,
                || ours.proved_read(&file, canonical),
                || plain.plain_read(&file, canonical),
            );
        }
    }
    true
}

/// The first bytes as an array, which are taken off.
fn take<const N: usize>(rest: &mut &[u8]) -> Result<[u8; N], u32> {
    let (first, behind) = rest.split_first_chunk().ok_or(40u32)?;
    *rest = behind;
    Ok(*first)
}

/// A number whose bit stands, else +0.0.
fn number(stands: bool, rest: &mut &[u8]) -> Result<f64, u32> {
    match stands {
        true => Ok(f64::from_le_bytes(take(rest)?)),
        false => Ok(0.0),
    }
}

impl Match {
    /// Whole numbers, a tenth of each list absent.
    fn new(n: usize, random: &mut Random) -> Match {
        let numbers = |random: &mut Random| -> Vec<f64> {
            let number = |_| match random.chance(100) {
                true => 0.0,
                false => random.below(1 << 30) as f64,
            };
            (0..n).map(number).collect()
        };
        let (u, v, cmax) = (numbers(random), numbers(random), numbers(random));
        let row = |at: usize| match random.chance(100) {
            true => NONE,
            false => at as u32,
        };
        let perm = (0..n).map(row).collect();
        Match { perm, u, v, cmax }
    }

    fn matched(&self) -> u32 {
        self.perm.iter().filter(|&&row| row != NONE).count() as u32
    }

    fn proved_write(&self, sheet: &mut [u8]) -> usize {
        let (n, matched) = (self.perm.len() as u32, self.matched());
        sheets::write_sheet(n, matched, &self.perm, &self.u, &self.v, &self.cmax, sheet)
            .expect("the match is taken")
    }

    fn plain_write(&self, sheet: &mut [u8]) -> Result<usize, u32> {
        let (n, matched) = (self.perm.len(), self.matched());
        if n > 4096 {
            return Err(1);
        }
        if [self.u.len(), self.v.len(), self.cmax.len()] != [n; 3] || sheet.len() != 2 + 29 * n {
            return Err(3);
        }
        let outside = |&row: &u32| row != NONE && row as usize >= n;
        if self.perm.iter().any(outside) || self.matched() != matched {
            return Err(10);
        }
        let mut at = 0;
        let mut put = |bytes: &[u8]| {
            sheet[at..at + bytes.len()].copy_from_slice(bytes);
            at += bytes.len();
        };
        put(&(n as u16).to_le_bytes());
        for k in 0..n {
            let row = self.perm[k];
            let numbers = [self.u[k], self.v[k], self.cmax[k]].map(f64::to_bits);
            let bit = |at: usize| u8::from(numbers[at] != 0) << (at + 1);
            let map = u8::from(row != NONE) | bit(0) | bit(1) | bit(2);
            if map == 0 {
                continue;
            }
            put(&(k as u16).to_le_bytes());
            put(&[map]);
            if row != NONE {
                put(&(row as u16).to_le_bytes());
            }
            for bits in numbers.into_iter().filter(|&bits| bits != 0) {
                put(&bits.to_le_bytes());
            }
        }
        Ok(at)
    }

    fn proved_read(&mut self, file: &[u8], canonical: bool) -> Result<[u32; 2], u32> {
        let call = match canonical {
            true => raw::read_canonical_sheet,
            false => raw::read_sheet,
        };
        let mut answer = [0; 2];
        call(
            file,
            &mut self.perm,
            &mut self.u,
            &mut self.v,
            &mut self.cmax,
            &mut answer,
        )
        .map_err(u32::from)?;
        Ok(answer)
    }

    /// Tests the whole file, then reads it again into the slices.
    fn plain_read(&mut self, file: &[u8], canonical: bool) -> Result<[u32; 2], u32> {
        let mut rest = file;
        let n = usize::from(u16::from_le_bytes(take(&mut rest)?));
        if n > 4096 {
            return Err(40);
        }
        if [self.perm.len(), self.u.len(), self.v.len(), self.cmax.len()] != [n; 4] {
            return Err(3);
        }
        let (mut given, mut next) = ([false; 4096], 0);
        records(rest, |record| {
            record.test(n, canonical, &mut given, &mut next)
        })?;
        self.perm.fill(NONE);
        self.u.fill(0.0);
        self.v.fill(0.0);
        self.cmax.fill(0.0);
        records(rest, |record| {
            self.perm[record.patch] = record.row;
            self.u[record.patch] = record.numbers[0];
            self.v[record.patch] = record.numbers[1];
            self.cmax[record.patch] = record.numbers[2];
            Ok(())
        })?;
        Ok([n as u32, self.matched()])
    }
}

struct Record {
    patch: usize,
    map: u8,
    row: u32,
    numbers: [f64; 3],
}

/// Each record in turn, up to the first that is cut or refused.
fn records(mut rest: &[u8], mut each: impl FnMut(Record) -> Result<(), u32>) -> Result<(), u32> {
    while !rest.is_empty() {
        let patch = u16::from_le_bytes(take(&mut rest)?).into();
        let [map] = take(&mut rest)?;
        let row = match map & 1 {
            0 => NONE,
            _ => u16::from_le_bytes(take(&mut rest)?).into(),
        };
        let (u, v) = (
            number(map & 2 != 0, &mut rest)?,
            number(map & 4 != 0, &mut rest)?,
        );
        let cmax = number(map & 8 != 0, &mut rest)?;
        each(Record {
            patch,
            map,
            row,
            numbers: [u, v, cmax],
        })?;
    }
    Ok(())
}

impl Record {
    fn test(
        &self,
        n: usize,
        canonical: bool,
        given: &mut [bool; 4096],
        next: &mut usize,
    ) -> Result<(), u32> {
        if self.map > 15 || self.patch >= n || (self.row != NONE && self.row as usize >= n) {
            return Err(41);
        }
        if canonical {
            let needless = |at: usize| self.map & (2 << at) != 0 && self.numbers[at].to_bits() == 0;
            if self.map == 0 || needless(0) || needless(1) || needless(2) {
                return Err(45);
            }
            if self.patch < *next {
                return Err(44);
            }
            *next = self.patch + 1;
        } else if std::mem::replace(&mut given[self.patch], true) {
            return Err(42);
        }
        Ok(())
    }
}
