//! Rutherford–Boeing files, and Harwell–Boeing ones, which differ only in their header: a matrix by columns, in numbers
//! of fixed width.

use suontarvi::Refusal;
use suontarvi::lengths::{MAX_ENTRIES, MAX_N, MAX_SYMMETRIC_ENTRIES};

use crate::fault::{BANNER, ENTRY_COUNT, ENTRY_LINE, Fault, SIZE_LINE};
use crate::matrix_market::{Field, Text, index, natural, number};
use crate::shown;

/// Whether a text has the third line of such a file: three letters that say what it is, then numbers.
pub fn is_one(text: &str) -> bool {
    let mut words = text.lines().nth(2).unwrap_or("").split_whitespace();
    let kind = words.next().unwrap_or("").to_ascii_lowercase();
    let [first, second, third] = *kind.as_bytes() else { return false };
    let known = b"rpicq".contains(&first) && b"ushzr".contains(&second) && b"ae".contains(&third);
    known && words.next().is_some_and(|word| natural(word).is_some())
}

/// The layout of numbers on a line: how many, and their width. For reals, how many digits follow a point that is not
/// written, and by which power of ten they are divided if they have no exponent.
#[derive(Debug, Clone, Copy, PartialEq, Eq)]
struct Format {
    per_line: usize,
    width: usize,
    decimals: i32,
    scale: i32,
}

impl Format {
    /// `(16I5)`, `(1P,5E16.8)`, `(3(D24.16))` and the like.
    fn read(text: &str) -> Option<Format> {
        let mut made = Format { per_line: 1, width: 0, decimals: 0, scale: 0 };
        let mut digits = String::new();
        let mut letters = text.chars().filter(|letter| !letter.is_whitespace()).peekable();
        while let Some(letter) = letters.next() {
            match letter.to_ascii_uppercase() {
                '0'..='9' | '-' | '+' => digits.push(letter),
                'P' => made.scale = std::mem::take(&mut digits).parse().ok()?,
                '(' | ',' => {
                    if !digits.is_empty() {
                        made.per_line = std::mem::take(&mut digits).parse().ok()?;
                    }
                }
                'I' | 'F' | 'E' | 'D' | 'G' => {
                    if !digits.is_empty() {
                        made.per_line = std::mem::take(&mut digits).parse().ok()?;
                    }
                    let mut rest = String::new();
                    while let Some(next) = letters.next_if(|next| next.is_ascii_digit() || *next == '.') {
                        rest.push(next);
                    }
                    let (width, decimals) = rest.split_once('.').unwrap_or((&rest, "0"));
                    made.width = width.parse().ok()?;
                    made.decimals = decimals.parse().ok()?;
                    let sound = (1..=1024).contains(&made.per_line) && (1..=1024).contains(&made.width);
                    return (sound && made.decimals <= 1024 && made.scale.abs() <= 1024).then_some(made);
                }
                _ => return None,
            }
        }
        None
    }
}

/// The lines after the header, and where they are.
struct Body<'a> {
    lines: Vec<&'a str>,
    at: usize,
}

impl<'a> Body<'a> {
    /// This many numbers, starting on a new line: each with its line, from 1.
    fn fields(&mut self, count: usize, format: Format, what: &str) -> Result<Vec<(&'a str, usize)>, Fault> {
        let mut found = Vec::with_capacity(count);
        while found.len() < count {
            let Some(line) = self.lines.get(self.at) else {
                let sentence = format!("{count} {what} are promised and there are {}", found.len());
                return Err(Fault::new(sentence).by(ENTRY_COUNT).at("its end"));
            };
            self.at += 1;
            let wanted = format.per_line.min(count - found.len());
            // some writers keep to blanks and not to widths
            let words: Vec<&str> = line.split_whitespace().collect();
            if words.len() == wanted {
                found.extend(words.into_iter().map(|word| (word, self.at)));
                continue;
            }
            for k in 0..wanted {
                let (from, to) = (k * format.width, (k + 1) * format.width);
                let word = line.get(from..to.min(line.len())).unwrap_or("").trim();
                if word.is_empty() {
                    let sentence = format!("there are not {wanted} numbers, each {} wide", format.width);
                    return Err(Fault::new(sentence).by(ENTRY_LINE).at_line(self.at));
                }
                found.push((word, self.at));
            }
        }
        Ok(found)
    }
}

/// The head: what is read of it.
struct Head {
    field: Field,
    symmetric: bool,
    n: usize,
    count: usize,
    formats: Vec<Format>,
    lines: usize,
}

/// Reads a file; faults are those of the first line that has one.
pub fn read(text: &str) -> Result<Text, Fault> {
    let lines: Vec<&str> = text.lines().collect();
    let head = head(&lines)?;
    let mut body = Body { at: head.lines, lines };
    let format = |at: usize| {
        head.formats.get(at).copied().ok_or_else(|| Fault::new("a format is not there").by(BANNER).at_line(4))
    };
    let pointers = pointers(&mut body, &head, format(0)?)?;
    let rows = body.fields(head.count, format(1)?, "rows")?;
    let values = match head.field {
        Field::Pattern => Vec::new(),
        _ => body.fields(head.count, format(2)?, "values")?,
    };
    let (mut entries, mut places) = (Vec::with_capacity(head.count), Vec::with_capacity(head.count));
    let mut column = 0;
    for (at, (word, line)) in rows.into_iter().enumerate() {
        while pointers.get(column + 1).is_some_and(|&end| end <= at) {
            column += 1;
        }
        let row = index("row", word, head.n).map_err(|fault| fault.at_line(line))?;
        if head.symmetric && (row as usize) < column {
            let sentence = format!("the entry of row {} and column {} is above the diagonal", row + 1, column + 1);
            return Err(Fault::new(sentence).by(Refusal::UpperTriangle).at_line(line));
        }
        let value = match values.get(at) {
            None => 1.0,
            Some((word, line)) => value(word, head.field, format(2)?).map_err(|fault| fault.at_line(*line))?,
        };
        entries.push((row, column as u32, value));
        places.push(line);
    }
    Ok(Text::new(head.field, head.symmetric, head.n, entries, places))
}

fn head(lines: &[&str]) -> Result<Head, Fault> {
    let line = |at: usize| lines.get(at).copied().unwrap_or("");
    let (kind, sizes) = line(2).trim_start().split_at_checked(3).unwrap_or(("", ""));
    let (field, symmetric) = kind_of(&kind.to_ascii_lowercase())?;
    let numbers: Option<Vec<usize>> = sizes.split_whitespace().map(natural).collect();
    let Some(&[rows, columns, count, ..]) = numbers.as_deref() else {
        return Err(Fault::new("the third line is not the kind, rows, columns and entries").by(SIZE_LINE).at_line(3));
    };
    let refused = |sentence: String| Fault::new(sentence).at_line(3);
    if rows != columns {
        return Err(refused(format!("the matrix is not square but {rows} by {columns}")).by(SIZE_LINE));
    }
    if rows > MAX_N {
        return Err(refused(format!("{rows} columns are more than {MAX_N}")).by(Refusal::TooManyColumns));
    }
    let limit = if symmetric { MAX_SYMMETRIC_ENTRIES } else { MAX_ENTRIES };
    if count > limit {
        return Err(refused(format!("{count} entries are more than {limit}")).by(Refusal::TooManyEntries));
    }
    // a Harwell–Boeing file counts the lines of its right-hand sides too, and tells of them on a fifth line
    let counts: Option<Vec<usize>> = line(1).split_whitespace().map(natural).collect();
    let sides = match counts.as_deref() {
        Some(&[_, _, _, _, sides, ..]) => sides,
        Some(&[_, _, _, ..]) => 0,
        _ => return Err(Fault::new("the second line is not the counts of lines").by(SIZE_LINE).at_line(2)),
    };
    let formats = formats(line(3)).ok_or_else(|| {
        let sentence = format!("the formats {} are not understood", shown::word(line(3).trim()));
        Fault::new(sentence).by(BANNER).at_line(4)
    })?;
    Ok(Head { field, symmetric, n: rows, count, formats, lines: if sides > 0 { 5 } else { 4 } })
}

fn kind_of(kind: &str) -> Result<(Field, bool), Fault> {
    let refused = |sentence: &str| Err(Fault::new(sentence).by(BANNER).at_line(3));
    let mut letters = kind.chars();
    let field = match letters.next() {
        Some('r') => Field::Real,
        Some('i') => Field::Integer,
        Some('p') => Field::Pattern,
        _ => return refused("the values are not real, integer or a pattern"),
    };
    let symmetric = match letters.next() {
        Some('u' | 'r') => false,
        Some('s') => true,
        _ => return refused("the matrix is not unsymmetric or symmetric"),
    };
    match letters.next() {
        Some('a') => Ok((field, symmetric)),
        _ => refused("the matrix is not assembled"),
    }
}

/// The formats of a line, each from its bracket to the one that closes it.
fn formats(line: &str) -> Option<Vec<Format>> {
    let (mut found, mut depth, mut text) = (Vec::new(), 0u32, String::new());
    for letter in line.chars() {
        depth += u32::from(letter == '(');
        if depth > 0 {
            text.push(letter);
        }
        if letter == ')' && depth > 0 {
            depth -= 1;
            if depth == 0 {
                found.push(Format::read(&std::mem::take(&mut text))?);
            }
        }
    }
    (found.len() >= 2).then_some(found)
}

/// Where each column begins, from 0, and the end of the last.
fn pointers(body: &mut Body, head: &Head, format: Format) -> Result<Vec<usize>, Fault> {
    let mut pointers: Vec<usize> = Vec::with_capacity(head.n + 1);
    for (word, line) in body.fields(head.n + 1, format, "pointers")? {
        let pointer = natural(word).unwrap_or(0).wrapping_sub(1);
        let sound = match pointers.last() {
            None => pointer == 0,
            Some(&last) => last <= pointer && pointer <= head.count,
        };
        if !sound || pointers.len() == head.n && pointer != head.count {
            let sentence = format!("the pointer {} does not rise from 1 to the entries", shown::word(word));
            return Err(Fault::new(sentence).by(Refusal::ColumnPointers).at_line(line));
        }
        pointers.push(pointer);
    }
    Ok(pointers)
}

/// A number as Fortran reads it: the exponent has the letter E or D, or none but its sign; a point may be left out.
fn value(word: &str, field: Field, format: Format) -> Result<f64, Fault> {
    if field == Field::Integer {
        return number(word, field);
    }
    let upper = word.to_ascii_uppercase().replace('D', "E");
    let behind_sign = upper.strip_prefix(['+', '-']).unwrap_or(&upper);
    let start = upper.len() - behind_sign.len();
    let letter = behind_sign.find('E');
    let split = letter.or_else(|| behind_sign.find(['+', '-'])).map(|at| start + at);
    let (digits, exponent) = upper.split_at_checked(split.unwrap_or(upper.len())).unwrap_or((&upper, ""));
    let exponent = exponent.strip_prefix('E').unwrap_or(exponent);
    let whole = match (split, exponent.parse::<i32>()) {
        (None, _) => Some(-format.scale),
        (Some(_), Ok(exponent)) if exponent.abs() < 1_000_000 => Some(exponent),
        _ => None,
    };
    let plain = digits.strip_prefix(['+', '-']).unwrap_or(digits);
    let sound = plain.parse::<f64>().is_ok() && plain.bytes().all(|byte| byte.is_ascii_digit() || byte == b'.');
    let Some(whole) = whole.filter(|_| sound) else {
        return Err(Fault::new(format!("the value {} is not a number", shown::word(word))).by(ENTRY_LINE));
    };
    let implied = if digits.contains('.') { 0 } else { format.decimals };
    number(&format!("{digits}e{}", whole - implied), field)
}

#[cfg(test)]
mod tests {
    use super::*;

    /// The matrix 1 0 / 2.5 -3 with a zero-width gap between its numbers.
    const REAL: &str = "\
a title                                                                 KEY
             3             1             1             1
rua                        2             2             3             0
(3I2)           (3I1)           (3E9.2)
 1 3 4
122
 1.00E+00 2.50D+00-3.00E+00
";

    #[test]
    fn a_file_of_each_kind() {
        let text = read(REAL).unwrap();
        assert!(is_one(REAL) && !is_one("%%MatrixMarket matrix coordinate real general\n1 1 1\n1 1 1\n"));
        assert_eq!((text.n, text.kind()), (2, "real general"));
        assert_eq!(text.entries, [(0, 0, 1.0), (1, 0, 2.5), (1, 1, -3.0)]);
        assert_eq!(text.line_of(1, 1), Some(6));
        let pattern = REAL.replace("rua", "psa");
        assert_eq!(read(&pattern).unwrap().entries, [(0, 0, 1.0), (1, 0, 1.0), (1, 1, 1.0)]);
        let whole = REAL
            .replace("rua", "ISA")
            .replace("(3E9.2)", "(3I9)")
            .replace(" 1.00E+00 2.50D+00-3.00E+00", "        1       25       -3");
        assert_eq!(read(&whole).unwrap().entries, [(0, 0, 1.0), (1, 0, 25.0), (1, 1, -3.0)]);
        // Harwell–Boeing: a fifth count, and a fifth line if there are right-hand sides
        let harwell = REAL.replace("             1             1             1\n", "    1    1    1    0\n");
        assert_eq!(read(&harwell).unwrap().entries, text.entries);
        let sides = harwell.replace("    1    0\n", "    1    2\n").replace("(3E9.2)\n", "(3E9.2)\nF  1 0\n");
        assert_eq!(read(&sides).unwrap().entries, text.entries);
    }

    #[test]
    fn formats_of_fortran() {
        let made = |per_line, width, decimals, scale| Some(Format { per_line, width, decimals, scale });
        for (text, format) in [
            ("(16I5)", made(16, 5, 0, 0)),
            ("(I8)", made(1, 8, 0, 0)),
            ("(1P,5E16.8)", made(5, 16, 8, 1)),
            ("(1P5D16.8)", made(5, 16, 8, 1)),
            ("(3(E24.16E3))", made(3, 24, 16, 0)),
            ("( 4 F 20.12 )", made(4, 20, 12, 0)),
            ("(-2P2G10.3)", made(2, 10, 3, -2)),
        ] {
            assert_eq!(Format::read(text), format, "{text}");
        }
        for text in ["", "(16)", "(16X5)", "(I)", "(0I5)", "(99999999999I5)", "(I9999)", "(P5E1.1)", "(1I2.x)"] {
            assert!(Format::read(text).is_none(), "{text}");
        }
    }

    #[test]
    fn numbers_of_fortran() {
        let format = Format { per_line: 1, width: 10, decimals: 2, scale: 1 };
        for (word, wanted) in [
            ("1.5", 0.15),
            ("1.5E0", 1.5),
            ("-1.5D+2", -150.0),
            ("1.5-3", 0.0015),
            ("+.5+001", 5.0),
            ("150E0", 1.5),
            ("150", 0.15),
            ("0", 0.0),
        ] {
            assert_eq!(value(word, Field::Real, format).unwrap(), wanted, "{word}");
        }
        for word in ["", "E5", "1.5E", "1.5E+", "x", "1.2.3", "1E9999999999", "1.0E400", "1-2-3", "NaN", "-"] {
            assert!(value(word, Field::Real, format).is_err(), "{word}");
        }
    }

    #[test]
    fn bad_files() {
        let bad = [
            (REAL.replace("rua", "cua"), "line 3: the values are not real"),
            (REAL.replace("rua", "rza"), "line 3: the matrix is not unsymmetric or symmetric"),
            (REAL.replace("rua", "rue"), "line 3: the matrix is not assembled"),
            (REAL.replace("2             2             3", "3  2  3"), "line 3: the matrix is not square but 3 by 2"),
            (REAL.replace("2             2             3", "4097 4097 3"), "line 3: 4097 columns are more than 4096"),
            (REAL.replace("2             2             3", "2 2 262145"), "line 3: 262145 entries are more than"),
            (REAL.replace("(3I2) ", "(3X2) "), "line 4: the formats (3X2)"),
            (REAL.replace(" 1 3 4", " 2 3 4"), "line 5: the pointer 2 does not rise"),
            (REAL.replace(" 1 3 4", " 1 3 3"), "line 5: the pointer 3 does not rise"),
            (REAL.replace(" 1 3 4", " 1 5 4"), "line 5: the pointer 5 does not rise"),
            (REAL.replace(" 1 3 4", " 1 3"), "line 5: there are not 3 numbers, each 2 wide"),
            (REAL.replace("122", "132"), "line 6: the row 3 is not within 1 to 2"),
            (REAL.replace("122", "1x2"), "line 6: the row x is not a number"),
            (REAL.replace("2.50D", "2.5xD"), "line 7: the value 2.5xD+00 is not a number"),
            (REAL.replace("rua", "rsa").replace("122", "121"), "line 6: the entry of row 1 and column 2 is above"),
            (REAL.lines().take(6).collect::<Vec<_>>().join("\n"), "its end: 3 values are promised and there are 0"),
            (REAL.lines().take(3).collect::<Vec<_>>().join("\n"), "line 4: the formats  are not understood"),
            (REAL.replace("122", "1é2"), "line 6: "),
        ];
        for (text, said) in bad {
            let fault = read(&text).err().map(|fault| fault.to_string()).unwrap_or_default();
            assert!(fault.starts_with(said) && fault.contains("(refused with "), "{fault:?} and not {said}");
        }
    }

    /// Cut anywhere, or with any byte changed, a file is read or refused.
    #[test]
    fn damaged_files() {
        for at in 0..REAL.len() {
            let _ = read(&REAL[..at]);
            for byte in [b' ', b'9', b'-', b'(', b'\n', b'x'] {
                let mut bytes = REAL.as_bytes().to_vec();
                bytes[at] = byte;
                let _ = read(std::str::from_utf8(&bytes).unwrap());
            }
        }
        let damaged = REAL.replace("2             2             3", "0 0 0").replace(" 1 3 4", " 1");
        assert_eq!(read(&damaged).unwrap().n, 0);
    }
}
