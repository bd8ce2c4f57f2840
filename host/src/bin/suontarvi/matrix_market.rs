//! Matrix Market text: matrices by coordinates are read, arrays and one row by coordinates are written.

use std::fmt::Display;

use suontarvi::Refusal;
use suontarvi::lengths::{MAX_ENTRIES, MAX_N, MAX_SYMMETRIC_ENTRIES};

use crate::fault::{BANNER, ENTRY_COUNT, ENTRY_LINE, Fault, SIZE_LINE};
use crate::{rutherford_boeing, shown};

/// What a value is written as.
#[derive(Debug, Clone, Copy, PartialEq, Eq)]
pub enum Field {
    Real,
    Integer,
    Pattern,
}

/// The contents of a file: entries in the order of their lines, from 0.
#[derive(Debug)]
pub struct Text {
    field: Field,
    pub symmetric: bool,
    pub n: usize,
    pub entries: Vec<(u32, u32, f64)>,
    /// The line of each entry, from 1.
    lines: Vec<usize>,
}

impl Text {
    /// What another reader found.
    pub fn new(field: Field, symmetric: bool, n: usize, entries: Vec<(u32, u32, f64)>, lines: Vec<usize>) -> Text {
        Text { field, symmetric, n, entries, lines }
    }

    /// Reads a file; faults are those of the first line that has one.
    pub fn read(bytes: &[u8]) -> Result<Text, Fault> {
        if let Some(sentence) = other_kind(bytes) {
            return Err(Fault::new(sentence).by(BANNER).at_line(1));
        }
        let text = String::from_utf8_lossy(bytes);
        if !text.starts_with("%%") && rutherford_boeing::is_one(&text) {
            return rutherford_boeing::read(&text);
        }
        let mut lines = text.lines().enumerate().map(|(at, line)| (at + 1, line));
        let (field, symmetric) = banner(lines.next().map_or("", |(_, line)| line))?;
        let mut lines = lines.filter(|(_, line)| !line.trim().is_empty());
        let size = lines.find(|(_, line)| !line.starts_with('%'));
        let (n, count) = match size {
            Some((line, text)) => sizes(text, symmetric).map_err(|fault| fault.at_line(line))?,
            None => return Err(Fault::new("the file has no size line").by(SIZE_LINE).at("its end")),
        };
        let mut read =
            Text { field, symmetric, n, entries: Vec::with_capacity(count), lines: Vec::with_capacity(count) };
        for (line, text) in lines {
            read.push(text, field, count).map_err(|fault| fault.at_line(line))?;
            read.lines.push(line);
        }
        let found = read.entries.len();
        if found < count {
            let sentence = format!("the size line promises {count} entries and there are {found}");
            return Err(Fault::new(sentence).by(ENTRY_COUNT).at("its end"));
        }
        Ok(read)
    }

    fn push(&mut self, text: &str, field: Field, count: usize) -> Result<(), Fault> {
        if self.entries.len() == count {
            return Err(Fault::new(format!("a line after the {count} entries of the size line")).by(ENTRY_COUNT));
        }
        let words: Vec<&str> = text.split_whitespace().collect();
        let (row, column, value) = match (field, &words[..]) {
            (Field::Pattern, [row, column]) => (row, column, None),
            (Field::Real | Field::Integer, [row, column, value]) => (row, column, Some(*value)),
            (Field::Pattern, _) => {
                return Err(Fault::new("an entry of a pattern is a row and a column").by(ENTRY_LINE));
            }
            _ => return Err(Fault::new("an entry is a row, a column and a value").by(ENTRY_LINE)),
        };
        let (row, column) = (index("row", row, self.n)?, index("column", column, self.n)?);
        let value = value.map_or(Ok(1.0), |value| number(value, field))?;
        if self.symmetric && row < column {
            let sentence = format!("the entry of row {} and column {} is above the diagonal", row + 1, column + 1);
            return Err(Fault::new(sentence).by(Refusal::UpperTriangle));
        }
        self.entries.push((row, column, value));
        Ok(())
    }

    /// Field and symmetry.
    pub fn kind(&self) -> &'static str {
        match (self.field, self.symmetric) {
            (Field::Real, false) => "real general",
            (Field::Real, true) => "real symmetric",
            (Field::Integer, false) => "integer general",
            (Field::Integer, true) => "integer symmetric",
            (Field::Pattern, false) => "pattern general",
            (Field::Pattern, true) => "pattern symmetric",
        }
    }

    /// The first line that states this place, or its mirror.
    pub fn line_of(&self, row: usize, column: usize) -> Option<usize> {
        let stated = |&(at, of, _): &(u32, u32, f64)| {
            let place = (at as usize, of as usize);
            place == (row, column) || self.symmetric && place == (column, row)
        };
        self.entries.iter().zip(&self.lines).find(|(entry, _)| stated(entry)).map(|(_, line)| *line)
    }
}

/// Files that are not text of this kind, by their first bytes.
const OTHER_KINDS: [(&[u8], &str); 11] = [
    (b"BZh", "the file is compressed by bzip2: bunzip2 it first"),
    (&[0xfd, b'7', b'z', b'X', b'Z', 0], "the file is compressed by xz: unxz it first"),
    (&[0x28, 0xb5, 0x2f, 0xfd], "the file is compressed by zstd: unzstd it first"),
    (b"PK\x03\x04", "the file is a zip archive: unpack it first"),
    (&[0xef, 0xbb, 0xbf], "the file begins with a byte order mark, and a banner must be its first bytes"),
    (&[0xfe, 0xff], "the file is UTF-16 text, and Matrix Market files are ASCII"),
    (&[0xff, 0xfe], "the file is UTF-16 text, and Matrix Market files are ASCII"),
    (&[0x89, b'H', b'D', b'F'], "the file is HDF5 (as MATLAB 7.3 saves), and not Matrix Market text"),
    (b"MATLAB 5.0", "the file is MATLAB's, and not Matrix Market text"),
    (b"<!", "the file is a web page, and not Matrix Market text"),
    (b"<html", "the file is a web page, and not Matrix Market text"),
];

/// What a file is, if it is recognisably something else.
fn other_kind(bytes: &[u8]) -> Option<&'static str> {
    if bytes.is_empty() {
        return Some("the file is empty");
    }
    OTHER_KINDS.iter().find(|(head, _)| bytes.starts_with(head)).map(|(_, sentence)| *sentence)
}

fn banner(line: &str) -> Result<(Field, bool), Fault> {
    let lower = line.to_ascii_lowercase();
    let words: Vec<&str> = lower.split_whitespace().collect();
    let refused = |sentence: &str| Err(Fault::new(sentence).by(BANNER).at_line(1));
    let ["%%matrixmarket", "matrix", layout, field, symmetry] = words[..] else {
        return refused("the first line is not a banner %%MatrixMarket matrix coordinate FIELD SYMMETRY");
    };
    if layout != "coordinate" {
        return refused("the matrix is not in coordinate form");
    }
    let field = match field {
        "real" => Field::Real,
        "integer" => Field::Integer,
        "pattern" => Field::Pattern,
        _ => return refused("the values are not real, integer or pattern"),
    };
    match symmetry {
        "general" => Ok((field, false)),
        "symmetric" => Ok((field, true)),
        _ => refused("the matrix is not general or symmetric"),
    }
}

/// n and the number of entries.
fn sizes(line: &str, symmetric: bool) -> Result<(usize, usize), Fault> {
    let words: Vec<&str> = line.split_whitespace().collect();
    let numbers: Vec<Option<usize>> = words.iter().map(|word| natural(word)).collect();
    let ([Some(rows), Some(columns), Some(count)], [row_word, column_word, count_word]) = (&numbers[..], &words[..])
    else {
        return Err(Fault::new("the size line is not rows, columns and the number of entries").by(SIZE_LINE));
    };
    let [row_word, column_word, count_word] = [row_word, column_word, count_word].map(|word| shown::word(word));
    if rows != columns {
        return Err(Fault::new(format!("the matrix is not square but {row_word} by {column_word}")).by(SIZE_LINE));
    }
    if *rows > MAX_N {
        return Err(Fault::new(format!("{row_word} columns are more than {MAX_N}")).by(Refusal::TooManyColumns));
    }
    let limit = if symmetric { MAX_SYMMETRIC_ENTRIES } else { MAX_ENTRIES };
    if *count > limit {
        return Err(Fault::new(format!("{count_word} entries are more than {limit}")).by(Refusal::TooManyEntries));
    }
    Ok((*rows, *count))
}

/// Digits only; what is beyond usize is beyond every limit too.
pub fn natural(word: &str) -> Option<usize> {
    let digits = !word.is_empty() && word.bytes().all(|byte| byte.is_ascii_digit());
    digits.then(|| word.parse().unwrap_or(usize::MAX))
}

/// A row or a column of a matrix with n of each, from 0.
pub fn index(what: &str, word: &str, n: usize) -> Result<u32, Fault> {
    let within = |number: usize| (1..=n).contains(&number);
    let shown = shown::word(word);
    let unwritten = |kind: &str| Fault::new(format!("the {what} {shown} is not {kind}")).by(ENTRY_LINE);
    match (natural(word), word.strip_prefix(['-', '+']).and_then(natural)) {
        (Some(number), _) if within(number) => Ok(number as u32 - 1),
        (None, Some(number)) if word.starts_with('+') && within(number) => Err(unwritten("written in digits alone")),
        (None, None) if word.parse::<f64>().is_ok() => Err(unwritten("a whole number")),
        (None, None) => Err(unwritten("a number")),
        _ => {
            let sentence = match n {
                0 => format!("the matrix is empty and has no {what} {shown}"),
                _ => format!("the {what} {shown} is not within 1 to {n}"),
            };
            Err(Fault::new(sentence).by(Refusal::IndexRange))
        }
    }
}

/// The largest magnitude up to which every integer is a double.
const MAX_INTEGER: u64 = 1 << 53;

/// A value that is a double: it is finite, no integer is rounded, and what is not zero stays so.
pub fn number(word: &str, field: Field) -> Result<f64, Fault> {
    let refused = |what: &str| Fault::new(format!("the value {} {what}", shown::word(word)));
    if field == Field::Integer {
        let digits = word.strip_prefix(['-', '+']).unwrap_or(word);
        if natural(digits).is_none() {
            return Err(refused("is not an integer").by(ENTRY_LINE));
        }
        return match word.parse::<i64>() {
            Ok(whole) if whole.unsigned_abs() <= MAX_INTEGER => Ok(whole as f64),
            _ => Err(refused("is above 2^53 in size, where doubles round integers").by(ENTRY_LINE)),
        };
    }
    let value: f64 = word.parse().map_err(|_| refused("is not a number").by(ENTRY_LINE))?;
    if value.is_nan() {
        return Err(refused("is a NaN").by(Refusal::ValueNotFinite));
    }
    if value.is_infinite() {
        let what = if word.bytes().any(|byte| byte.is_ascii_digit()) {
            "is beyond the range of doubles"
        } else {
            "is infinite"
        };
        return Err(refused(what).by(Refusal::ValueNotFinite));
    }
    let mantissa = word.split(['e', 'E']).next().unwrap_or(word);
    if value == 0.0 && mantissa.bytes().any(|byte| matches!(byte, b'1'..=b'9')) {
        return Err(refused("is below the range of doubles and would be a zero").by(ENTRY_LINE));
    }
    Ok(value)
}

/// A number so that it reads back as itself.
pub fn shortest(number: f64) -> String {
    format!("{number:e}")
}

/// An array: `columns` side by side, all of one length.
pub fn array<T: Display>(field: &str, comment: &str, columns: &[Vec<T>]) -> String {
    let rows = columns.first().map_or(0, Vec::len);
    let mut text = format!("%%MatrixMarket matrix array {field} general\n% {comment}\n{rows} {}\n", columns.len());
    for value in columns.iter().flatten() {
        text += &format!("{value}\n");
    }
    text
}

/// A matrix by coordinates: row, column and value of each entry, all from 0.
pub fn coordinates(n: usize, comment: &str, entries: &[(usize, usize, f64)]) -> String {
    let head = "%%MatrixMarket matrix coordinate real general";
    let mut text = format!("{head}\n% {comment}\n{n} {n} {}\n", entries.len());
    for &(row, column, value) in entries {
        text += &format!("{} {} {}\n", row + 1, column + 1, shortest(value));
    }
    text
}

/// One row by coordinates: column and value of each entry, all from 0.
pub fn one_row(n: usize, row: usize, entries: &[(usize, f64)]) -> String {
    let mut text = format!("%%MatrixMarket matrix coordinate real general\n{n} {n} {}\n", entries.len());
    for &(column, value) in entries {
        text += &format!("{} {} {}\n", row + 1, column + 1, shortest(value));
    }
    text
}
