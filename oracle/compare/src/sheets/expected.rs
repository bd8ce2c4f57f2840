//! The rules of sheet files, restated.

use std::collections::BTreeSet;

pub const NONE: u32 = u32::MAX;

/// The columns that any call takes.
pub const MOST: usize = 4096;

/// A match; numbers by their bits.
#[derive(Clone, Debug, Default, PartialEq)]
pub struct Match {
    pub perm: Vec<u32>,
    pub u: Vec<u64>,
    pub v: Vec<u64>,
    pub cmax: Vec<u64>,
}

impl Match {
    pub fn lengths(&self) -> [usize; 4] {
        [&self.u, &self.v, &self.cmax].iter().enumerate().fold(
            [self.perm.len(); 4],
            |mut all, (at, list)| {
                all[at + 1] = list.len();
                all
            },
        )
    }

    pub fn matched(&self) -> u32 {
        self.perm.iter().filter(|&&row| row != NONE).count() as u32
    }

    fn blank(n: usize) -> Match {
        Match {
            perm: vec![NONE; n],
            u: vec![0; n],
            v: vec![0; n],
            cmax: vec![0; n],
        }
    }
}

/// One record as it stands in a file: absent fields are none.
#[derive(Clone, Debug, Default)]
pub struct Record {
    pub patch: u16,
    pub unknown: u8,
    pub row: Option<u16>,
    pub numbers: [Option<u64>; 3],
}

impl Record {
    pub fn bytes(&self) -> Vec<u8> {
        let mut map = self.unknown;
        let mut fields = Vec::new();
        if let Some(row) = self.row {
            map |= 1;
            fields.extend(row.to_le_bytes());
        }
        for (at, number) in self.numbers.iter().enumerate() {
            if let Some(bits) = number {
                map |= 2 << at;
                fields.extend(bits.to_le_bytes());
            }
        }
        let mut bytes = self.patch.to_le_bytes().to_vec();
        bytes.push(map);
        bytes.extend(fields);
        bytes
    }

    /// The record at the front, and what is behind it; none if it is cut.
    fn first(bytes: &[u8]) -> Option<(Record, &[u8])> {
        let (patch, bytes) = bytes.split_first_chunk()?;
        let (&map, mut bytes) = bytes.split_first()?;
        let mut record = Record {
            patch: u16::from_le_bytes(*patch),
            unknown: map & 0xF0,
            ..Record::default()
        };
        if map & 1 != 0 {
            let (row, rest) = bytes.split_first_chunk()?;
            record.row = Some(u16::from_le_bytes(*row));
            bytes = rest;
        }
        for at in 0..3 {
            if map & 2 << at != 0 {
                let (number, rest) = bytes.split_first_chunk()?;
                record.numbers[at] = Some(u64::from_le_bytes(*number));
                bytes = rest;
            }
        }
        Some((record, bytes))
    }

    fn outside(&self, n: usize) -> bool {
        let inside = |index: u16| usize::from(index) < n;
        self.unknown != 0 || !inside(self.patch) || self.row.is_some_and(|row| !inside(row))
    }

    fn needless(&self) -> bool {
        let empty = self.row.is_none() && self.numbers == [None; 3];
        empty || self.numbers.contains(&Some(0))
    }
}

/// The records of a match that have something to say.
pub fn records(of: &Match) -> Vec<Record> {
    let said = |bits: u64| (bits != 0).then_some(bits);
    let record = |at: usize| Record {
        patch: at as u16,
        unknown: 0,
        row: (of.perm[at] != NONE).then_some(of.perm[at] as u16),
        numbers: [said(of.u[at]), said(of.v[at]), said(of.cmax[at])],
    };
    let all = (0..of.perm.len()).map(record);
    all.filter(|record| record.row.is_some() || record.numbers != [None; 3])
        .collect()
}

pub fn file(n: usize, records: &[Record]) -> Vec<u8> {
    let mut bytes = (n as u16).to_le_bytes().to_vec();
    bytes.extend(records.iter().flat_map(Record::bytes));
    bytes
}

/// What `write_sheet` is to do with a slice of `room` bytes.
pub fn written(n: u32, matched: u32, of: &Match, room: usize, used: usize) -> Result<Vec<u8>, u32> {
    let size = n as usize;
    if size > MOST {
        return Err(1);
    }
    if of.lengths() != [size; 4] || room != 2 + 29 * size || used != 1 {
        return Err(3);
    }
    let outside = |&row: &u32| row != NONE && row >= n;
    if of.perm.iter().any(outside) || of.matched() != matched {
        return Err(10);
    }
    Ok(file(size, &records(of)))
}

/// What a reader is to make of a file; n is the length of each list.
pub fn read(
    bytes: &[u8],
    lengths: [usize; 4],
    answer: usize,
    canonical: bool,
) -> Result<Match, u32> {
    let Some((n, mut rest)) = bytes.split_first_chunk() else {
        return Err(40);
    };
    let n = usize::from(u16::from_le_bytes(*n));
    if n > MOST {
        return Err(40);
    }
    if lengths != [n; 4] || answer != 2 {
        return Err(3);
    }
    let mut found = Match::blank(n);
    let mut given = BTreeSet::new();
    while !rest.is_empty() {
        let (record, behind) = Record::first(rest).ok_or(40u32)?;
        test(&record, n, &mut given, canonical)?;
        let at = usize::from(record.patch);
        found.perm[at] = record.row.map_or(NONE, u32::from);
        found.u[at] = record.numbers[0].unwrap_or(0);
        found.v[at] = record.numbers[1].unwrap_or(0);
        found.cmax[at] = record.numbers[2].unwrap_or(0);
        rest = behind;
    }
    Ok(found)
}

/// The refusals of a record that is there, behind the patches that were given.
fn test(record: &Record, n: usize, given: &mut BTreeSet<u16>, canonical: bool) -> Result<(), u32> {
    if record.outside(n) {
        return Err(41);
    }
    if canonical {
        if record.needless() {
            return Err(45);
        }
        if given.last().is_some_and(|&last| record.patch <= last) {
            return Err(44);
        }
    } else if given.contains(&record.patch) {
        return Err(42);
    }
    given.insert(record.patch);
    Ok(())
}
