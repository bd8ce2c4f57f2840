//! The tie files of SPECIFICATION 11 read plainly, and the cost graph that each kind of file has.

use oracle::Graph;
use std::collections::BTreeMap;

pub const INPUT_LIMIT: usize = 32_768;
pub const LINE_LIMIT: usize = 1024;
pub const SIZE_LIMIT: u64 = 64;
pub const TIE_LIMIT: u64 = 512;
pub const DIGIT_LIMIT: usize = 18;

/// The size of a symmetric file's value is below this.
pub const VALUE_LIMIT: u64 = 1 << 53;

#[derive(Clone, Copy, Debug, PartialEq)]
pub enum Kind {
    General,
    Symmetric,
    Pattern,
}

pub const KINDS: [Kind; 3] = [Kind::General, Kind::Symmetric, Kind::Pattern];

/// What is given of each pair (column, row).
type Pairs<T> = BTreeMap<(u64, u64), T>;

/// An accepted file: indices from 1, and of each entry its cost, the size of its value, or 0.
pub struct Sheet {
    pub kind: Kind,
    n: u64,
    weights: Pairs<u64>,
}

impl Kind {
    /// The banner's words.
    pub fn banner(self) -> [&'static str; 5] {
        let (field, symmetry) = match self {
            Kind::General => ("integer", "general"),
            Kind::Symmetric => ("integer", "symmetric"),
            Kind::Pattern => ("pattern", "general"),
        };
        ["%%MatrixMarket", "matrix", "coordinate", field, symmetry]
    }
}

/// The sheet of a file, or the number of its refusal.
pub fn read(input: &[u8]) -> Result<Sheet, u32> {
    if input.len() > INPUT_LIMIT {
        return Err(22);
    }
    // a last line feed begins no further line
    let text = input.strip_suffix(b"\n").unwrap_or(input);
    let mut lines = text.split(|&byte| byte == b'\n');
    let kind = banner(lines.next().unwrap_or_default())?;
    let mut size = None;
    let mut entries = Vec::new();
    for line in lines {
        let words = words(line)?;
        match size {
            _ if words.is_empty() => {}
            None if line[0] == b'%' => {}
            None => size = Some(size_line(&words)?),
            Some((_, count)) if entries.len() as u64 == count => return Err(24),
            Some((n, _)) => entries.push(entry_line(kind, &words, n)?),
        }
    }
    let (n, count) = size.ok_or(21u32)?;
    if (entries.len() as u64) < count {
        return Err(24);
    }
    let weights: Pairs<u64> = entries.iter().copied().collect();
    if weights.len() < entries.len() {
        return Err(25);
    }
    Ok(Sheet { kind, n, weights })
}

/// The words of a line that is not too long.
fn words(line: &[u8]) -> Result<Vec<&[u8]>, u32> {
    if line.len() > LINE_LIMIT {
        return Err(22);
    }
    let split = line.split(|byte| b" \t\r".contains(byte));
    Ok(split.filter(|word| !word.is_empty()).collect())
}

fn banner(line: &[u8]) -> Result<Kind, u32> {
    let words = words(line)?;
    let spelt = |kind: &Kind| {
        let right = kind.banner();
        words.len() == right.len()
            && words
                .iter()
                .zip(right)
                .all(|(word, right)| word.eq_ignore_ascii_case(right.as_bytes()))
    };
    match KINDS.into_iter().find(spelt) {
        Some(kind) if line[0] == b'%' => Ok(kind),
        _ => Err(20),
    }
}

/// N and L.
fn size_line(words: &[&[u8]]) -> Result<(u64, u64), u32> {
    let &[m, n, count] = words else {
        return Err(21);
    };
    match (number(m), number(n), number(count)) {
        (Some(m), Some(n), Some(count)) if m == n => match n <= SIZE_LIMIT && count <= TIE_LIMIT {
            true => Ok((n, count)),
            false => Err(22),
        },
        _ => Err(21),
    }
}

/// The pair (column, row) and its weight.
fn entry_line(kind: Kind, words: &[&[u8]], n: u64) -> Result<((u64, u64), u64), u32> {
    let (row, column, weight) = match (kind, words) {
        (Kind::General, &[row, column, cost]) => (row, column, number(cost)),
        (Kind::Symmetric, &[row, column, value]) => (row, column, size_of(value)),
        (Kind::Pattern, &[row, column]) => (row, column, Some(0)),
        _ => return Err(23),
    };
    let (Some(row), Some(column), Some(weight)) = (number(row), number(column), weight) else {
        return Err(23);
    };
    let inside = 1..=n;
    let fits = match kind {
        Kind::Symmetric => weight < VALUE_LIMIT,
        _ => u128::from(n) * u128::from(weight) < 1 << 48,
    };
    if !inside.contains(&row) || !inside.contains(&column) || !fits {
        Err(23)
    } else if kind == Kind::Symmetric && row < column {
        Err(26)
    } else {
        Ok(((column, row), weight))
    }
}

/// One to eighteen digits.
fn number(word: &[u8]) -> Option<u64> {
    let shaped = (1..=DIGIT_LIMIT).contains(&word.len()) && word.iter().all(u8::is_ascii_digit);
    let digit = |value: u64, byte: &u8| 10 * value + u64::from(byte - b'0');
    shaped.then(|| word.iter().fold(0, digit))
}

/// The same behind one minus, or without one.
fn size_of(word: &[u8]) -> Option<u64> {
    number(word.strip_prefix(b"-").unwrap_or(word))
}

impl Sheet {
    /// The cost graph; `log` is the whole-number logarithm, of a number other than zero.
    pub fn graph(&self, log: impl Fn(f64) -> i32) -> Graph {
        let costs = match self.kind {
            Kind::Symmetric => self.costs(log),
            _ => self
                .weights
                .iter()
                .map(|(&pair, &cost)| (pair, cost as i64))
                .collect(),
        };
        let up_to = |column: u64| costs.range(..(column + 1, 0)).count();
        let col_ptr = (0..=self.n).map(up_to).collect();
        let row_idx = costs.keys().map(|(_, row)| *row as usize - 1).collect();
        let cost = costs.values().map(|&cost| cost as f64).collect();
        Graph::new(self.n as usize, col_ptr, row_idx, cost)
    }

    /// Of the values other than zero, on both sides of the diagonal: their column's largest logarithm minus their own.
    fn costs(&self, log: impl Fn(f64) -> i32) -> Pairs<i64> {
        let mut costs = Pairs::new();
        for (&(column, row), &size) in self.weights.iter().filter(|(_, &size)| size != 0) {
            let p = i64::from(log(size as f64));
            costs.insert((column, row), p);
            costs.insert((row, column), p);
        }
        for column in 1..=self.n {
            let largest = costs
                .range((column, 0)..(column + 1, 0))
                .map(|(_, &p)| p)
                .max();
            for (_, p) in costs.range_mut((column, 0)..(column + 1, 0)) {
                *p = largest.unwrap_or(0) - *p;
            }
        }
        costs
    }
}
