//! Vectors: Matrix Market arrays, or few entries by coordinates, with any number of columns; and numbers times factors.

use std::ffi::OsStr;

use suontarvi::{Exponents, Factors, GeneralMatrix, Refusal};

use crate::fault::{BANNER, ENTRY_COUNT, ENTRY_LINE, Fault, SIZE_LINE};
use crate::matrix_market::{Field, natural, number};
use crate::places::SUM_BEYOND;
use crate::{files, shown};

/// The most numbers of an array.
const MOST: usize = 1 << 24;

/// Columns of one length, and whether they were written as integers.
#[derive(Debug, PartialEq)]
pub struct Vectors {
    pub integer: bool,
    pub columns: Vec<Vec<f64>>,
}

impl Vectors {
    /// The vectors of a file; each must have `rows` numbers.
    pub fn read(file: &OsStr, rows: usize) -> Result<Vectors, Fault> {
        Vectors::of(&files::read_unpacked(file)?, rows).map_err(|fault| fault.of(file))
    }

    fn of(bytes: &[u8], rows: usize) -> Result<Vectors, Fault> {
        let text = String::from_utf8_lossy(bytes);
        let mut lines = (1..).zip(text.lines());
        let (array, field) = banner(lines.next().map_or("", |(_, line)| line))?;
        let mut lines = lines.filter(|(_, line)| !line.trim().is_empty() && !line.starts_with('%'));
        let Some((line, size)) = lines.next() else {
            return Err(Fault::new("the file has no size line").by(SIZE_LINE).at("its end"));
        };
        let (columns, count) = sizes(size, array, rows).map_err(|fault| fault.at_line(line))?;
        let mut read = Vectors { integer: field == Field::Integer, columns: vec![vec![0.0; rows]; columns] };
        let mut found = 0;
        for (line, text) in lines {
            let words: Vec<&str> = text.split_whitespace().collect();
            if found == count {
                let sentence = format!("a line after the {count} numbers of the size line");
                return Err(Fault::new(sentence).by(ENTRY_COUNT).at_line(line));
            }
            let place = if array { place_in_array(&words, found, rows) } else { place_by_coordinates(&words) };
            let (row, column, word) = place.map_err(|fault| fault.at_line(line))?;
            let value = number(word, field).map_err(|fault| fault.at_line(line))?;
            let Some(to) = read.columns.get_mut(column).and_then(|column| column.get_mut(row)) else {
                let sentence = format!("a place beyond {rows} rows and {columns} columns");
                return Err(Fault::new(sentence).by(Refusal::IndexRange).at_line(line));
            };
            *to += value;
            if to.is_infinite() {
                return Err(Fault::new(SUM_BEYOND).by(Refusal::ValueNotFinite).at_line(line));
            }
            found += 1;
        }
        if found < count {
            let sentence = format!("the size line promises {count} numbers and there are {found}");
            return Err(Fault::new(sentence).by(ENTRY_COUNT).at("its end"));
        }
        Ok(read)
    }
}

/// Whether it is an array, and what its values are.
fn banner(line: &str) -> Result<(bool, Field), Fault> {
    let lower = line.to_ascii_lowercase();
    let words: Vec<&str> = lower.split_whitespace().collect();
    let layout = |word| match word {
        "array" => Some(true),
        "coordinate" => Some(false),
        _ => None,
    };
    let field = |word| match word {
        "real" => Some(Field::Real),
        "integer" => Some(Field::Integer),
        _ => None,
    };
    let read = match words[..] {
        ["%%matrixmarket", "matrix", first, second, "general"] => layout(first).zip(field(second)),
        _ => None,
    };
    read.ok_or_else(|| {
        Fault::new(
            "the first line is not the banner of a real or integer array, %%MatrixMarket matrix array real general",
        )
        .by(BANNER)
        .at_line(1)
    })
}

/// Columns, and the numbers that follow.
fn sizes(line: &str, array: bool, rows: usize) -> Result<(usize, usize), Fault> {
    let numbers: Option<Vec<usize>> = line.split_whitespace().map(natural).collect();
    let (given, columns, count) = match (array, numbers.as_deref()) {
        (true, Some(&[given, columns])) => (given, columns, given.saturating_mul(columns)),
        (false, Some(&[given, columns, count])) => (given, columns, count),
        _ => return Err(Fault::new("the size line is not that of an array").by(SIZE_LINE)),
    };
    if given != rows {
        return Err(Fault::new(format!("the array has {given} rows, and the matrix {rows}")).by(SIZE_LINE));
    }
    if columns.saturating_mul(rows.max(1)) > MOST || count > MOST {
        return Err(Fault::new(format!("the array has more than {MOST} numbers")).by(SIZE_LINE));
    }
    Ok((columns, count))
}

type Place<'a> = (usize, usize, &'a str);

fn place_in_array<'a>(words: &[&'a str], found: usize, rows: usize) -> Result<Place<'a>, Fault> {
    match *words {
        [word] => Ok((found.checked_rem(rows).unwrap_or(0), found.checked_div(rows).unwrap_or(0), word)),
        _ => Err(Fault::new("a line of an array is one number").by(ENTRY_LINE)),
    }
}

fn place_by_coordinates<'a>(words: &[&'a str]) -> Result<Place<'a>, Fault> {
    let [row, column, value] = *words else {
        return Err(Fault::new("an entry is a row, a column and a value").by(ENTRY_LINE));
    };
    match (natural(row), natural(column)) {
        (Some(row @ 1..), Some(column @ 1..)) => Ok((row - 1, column - 1, value)),
        _ => Err(Fault::new("the row or the column is not a number from 1").by(ENTRY_LINE)),
    }
}

/// On which side factors stand.
#[derive(Debug, Clone, Copy, PartialEq, Eq)]
pub enum Side {
    Rows,
    Columns,
}

/// Numbers times the factors of rows or columns. By powers of two the library scales them, as a diagonal matrix, so
/// that nothing is rounded; it is refused where that cannot be, or where a number other than zero would not stay
/// normal.
pub fn times(numbers: &[f64], by: &Factors, side: Side) -> Result<Vec<f64>, Fault> {
    match (by, side) {
        (Factors::Powers(by), Side::Rows) => times_powers(numbers, &by.rows),
        (Factors::Powers(by), Side::Columns) => times_powers(numbers, &by.columns),
        (Factors::Reals { rows, .. }, Side::Rows) => times_factors(numbers, rows),
        (Factors::Reals { columns, .. }, Side::Columns) => times_factors(numbers, columns),
    }
}

fn times_powers(numbers: &[f64], exponents: &[i32]) -> Result<Vec<f64>, Fault> {
    let n = numbers.len();
    let size = u32::try_from(n).unwrap_or(u32::MAX);
    let scaled = GeneralMatrix::from_columns(n, (0..=size).collect(), (0..size).collect(), numbers.to_vec()).and_then(
        |mut diagonal| {
            diagonal.scale_by(&Exponents { rows: exponents.to_vec(), columns: vec![0; n] })?;
            Ok(diagonal.values().to_vec())
        },
    );
    scaled.map_err(|refusal| {
        let field = |number: f64| (number.to_bits() >> 52 & 0x7FF) as i64;
        let kept = |(&number, &exponent): (&f64, &i32)| {
            number == 0.0 || number.is_normal() && (1..2047).contains(&(field(number) + i64::from(exponent)))
        };
        let fault = Fault::refused(refusal);
        match numbers.iter().zip(exponents).position(|pair| !kept(pair)) {
            Some(at) => fault.at(format!("number {}", at + 1)),
            None => fault,
        }
    })
}

fn times_factors(numbers: &[f64], factors: &[f64]) -> Result<Vec<f64>, Fault> {
    let products: Vec<f64> = numbers.iter().zip(factors).map(|(number, factor)| number * factor).collect();
    match numbers.iter().zip(&products).position(|(&before, &after)| is_lost(before, after)) {
        Some(at) => Err(Fault::refused(Refusal::ValueNotNormal).at(format!("number {}", at + 1))),
        None => Ok(products),
    }
}

/// Whether a number other than zero did not stay a normal one.
pub fn is_lost(before: f64, after: f64) -> bool {
    before != 0.0 && !after.is_normal()
}

/// The same factors the other way: what they scaled comes back, exactly for powers of two.
pub fn inverse(by: &Factors) -> Factors {
    match by {
        Factors::Powers(by) => Factors::Powers(Exponents {
            rows: by.rows.iter().map(|exponent| -exponent).collect(),
            columns: by.columns.iter().map(|exponent| -exponent).collect(),
        }),
        Factors::Reals { rows, columns } => Factors::Reals {
            rows: rows.iter().map(|factor| 1.0 / factor).collect(),
            columns: columns.iter().map(|factor| 1.0 / factor).collect(),
        },
    }
}

/// What `apply` always writes beside a matrix, and `restore` reads.
pub const BESIDE: &[&str] = &["perm", "factors"];

/// A file beside another: `folder/out.mtx` and `perm` give `folder/out.perm.mtx`.
pub fn beside(file: &OsStr, what: &str) -> std::ffi::OsString {
    let path = std::path::Path::new(file);
    let stem = match path.extension().is_some_and(|ending| ending.eq_ignore_ascii_case("mtx")) {
        true => path.with_extension(""),
        false => path.to_path_buf(),
    };
    let mut name = stem.into_os_string();
    name.push(format!(".{what}.mtx"));
    name
}

/// A number as it was read or is to be read, for a sentence.
pub fn word(number: f64) -> String {
    shown::word(&number.to_string())
}

#[cfg(test)]
mod tests {
    use super::*;

    const ARRAY: &str = "%%MatrixMarket matrix array real general\n% b\n2 2\n1\n-2\n\n3e5\n4\n";

    #[test]
    fn arrays_and_coordinates() {
        let read = Vectors::of(ARRAY.as_bytes(), 2).unwrap();
        assert_eq!(read, Vectors { integer: false, columns: vec![vec![1.0, -2.0], vec![3e5, 4.0]] });
        let few = "%%MatrixMarket matrix coordinate integer general\n2 1 1\n2 1 7\n";
        assert_eq!(Vectors::of(few.as_bytes(), 2).unwrap().columns, [[0.0, 7.0]]);
        let none = "%%MatrixMarket matrix array real general\n0 1\n";
        assert_eq!(Vectors::of(none.as_bytes(), 0).unwrap().columns, [[0.0; 0]]);
    }

    #[test]
    fn bad_arrays() {
        let bad = [
            (ARRAY.replace("array", "list"), "line 1: the first line is not the banner"),
            (ARRAY.replace("2 2", "3 2"), "line 3: the array has 3 rows, and the matrix 2"),
            (ARRAY.replace("2 2", "2 99999999999999999999"), "line 3: the array has more than"),
            (ARRAY.replace("2 2", "2"), "line 3: the size line is not"),
            (ARRAY.replace("-2", "x"), "line 5: the value x is not a number"),
            (ARRAY.replace("-2", "1 2"), "line 5: a line of an array is one number"),
            (ARRAY.replace("\n4\n", "\n"), "its end: the size line promises 4 numbers and there are 3"),
            (ARRAY.to_string() + "5\n", "line 9: a line after the 4 numbers"),
            ("%%MatrixMarket matrix coordinate real general\n2 1 1\n3 1 1\n".into(), "line 3: a place beyond 2 rows"),
            ("%%MatrixMarket matrix coordinate real general\n2 1 1\n0 1 1\n".into(), "line 3: the row or the column"),
            ("%%MatrixMarket matrix coordinate real general\n2 1 2\n2 1 1e308\n2 1 1e308\n".into(), "line 4: the sum"),
            ("%%MatrixMarket matrix array real general\n".into(), "its end: the file has no size line"),
        ];
        for (text, said) in bad {
            let fault = Vectors::of(text.as_bytes(), 2).unwrap_err().to_string();
            assert!(fault.starts_with(said), "{fault}");
        }
    }

    #[test]
    fn products_keep_what_is_not_zero() {
        let powers = |exponents: &[i32]| Factors::Powers(Exponents { rows: exponents.to_vec(), columns: vec![] });
        assert_eq!(times(&[3.0, 0.0], &powers(&[-2, 9]), Side::Rows).unwrap(), [0.75, 0.0]);
        let fault = times(&[1.0, 1e300], &powers(&[1, 100]), Side::Rows).unwrap_err();
        assert!(fault.to_string().starts_with("number 2: "), "{fault}");
        let by = Factors::Reals { rows: vec![], columns: vec![1e-300] };
        assert!(times(&[1e-10], &by, Side::Columns).is_err());
        assert_eq!(times(&[0.0], &by, Side::Columns).unwrap(), [0.0]);
    }

    #[test]
    fn names_beside() {
        assert_eq!(beside(OsStr::new("d/out.mtx"), "perm"), "d/out.perm.mtx");
        assert_eq!(beside(OsStr::new("d.mtx/out"), "rhs"), "d.mtx/out.rhs.mtx");
    }
}
