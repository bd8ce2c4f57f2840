//! The text form of requests and answers: a keyword line, labelled lines, and
//! a line `end`. Doubles are the 16 hex digits of their bits, indices are
//! decimal, a missing row is `-`. README.md describes it.

use crate::NONE;
use std::fmt::{Display, Write};
use std::io;

/// Numbered lines of input, from 1.
pub trait Lines: Iterator<Item = (usize, io::Result<String>)> {}
impl<I: Iterator<Item = (usize, io::Result<String>)>> Lines for I {}

/// One request: its keyword and the labelled lines not yet taken.
pub struct Request {
    pub keyword: String,
    at: usize,
    lines: Vec<(String, Vec<String>)>,
}

impl Request {
    /// The next request; none at the end of the input. Blank lines and lines
    /// that begin with `#` are skipped.
    pub fn read(input: &mut impl Lines) -> Result<Option<Request>, String> {
        let Some((at, keyword, rest)) = next_line(input)? else {
            return Ok(None);
        };
        let mut request = Request {
            keyword,
            at,
            lines: Vec::new(),
        };
        if !rest.is_empty() {
            return Err(request.fault("a keyword stands alone on its line"));
        }
        while let Some((_, label, words)) = next_line(input)? {
            if label == "end" && words.is_empty() {
                return Ok(Some(request));
            }
            if request.lines.iter().any(|(known, _)| *known == label) {
                return Err(request.fault(&format!("the line `{label}` stands twice")));
            }
            request.lines.push((label, words));
        }
        Err(request.fault("the line `end` is missing"))
    }

    /// A message that says which request is at fault.
    pub fn fault(&self, what: &str) -> String {
        format!("line {}: {}: {what}", self.at, self.keyword)
    }

    /// Every line has been taken.
    pub fn finish(self) -> Result<(), String> {
        match self.lines.first() {
            None => Ok(()),
            Some((label, _)) => Err(self.fault(&format!("no line `{label}` belongs here"))),
        }
    }

    fn words(&mut self, label: &str) -> Result<Vec<String>, String> {
        match self.lines.iter().position(|(known, _)| known == label) {
            Some(at) => Ok(self.lines.remove(at).1),
            None => Err(self.fault(&format!("the line `{label}` is missing"))),
        }
    }

    /// The one word of a line.
    pub fn word(&mut self, label: &str) -> Result<String, String> {
        match self.words(label)?.as_slice() {
            [word] => Ok(word.clone()),
            _ => Err(self.fault(&format!("`{label}` takes one word"))),
        }
    }

    pub fn index(&mut self, label: &str) -> Result<usize, String> {
        let word = self.word(label)?;
        self.parsed(label, &word, index(&word))
    }

    pub fn indices(&mut self, label: &str) -> Result<Vec<usize>, String> {
        self.list(label, index)
    }

    /// Indices, or `-` for none.
    pub fn rows_or_none(&mut self, label: &str) -> Result<Vec<usize>, String> {
        self.list(
            label,
            |word| if word == "-" { Some(NONE) } else { index(word) },
        )
    }

    pub fn doubles(&mut self, label: &str) -> Result<Vec<f64>, String> {
        self.list(label, double)
    }

    fn list<T>(&mut self, label: &str, parse: fn(&str) -> Option<T>) -> Result<Vec<T>, String> {
        let words = self.words(label)?;
        let parsed = words
            .iter()
            .map(|word| self.parsed(label, word, parse(word)));
        parsed.collect()
    }

    fn parsed<T>(&self, label: &str, word: &str, value: Option<T>) -> Result<T, String> {
        value.ok_or_else(|| self.fault(&format!("`{word}` is misshapen in `{label}`")))
    }
}

/// The next line that has words: its number, its first word and the others.
fn next_line(input: &mut impl Lines) -> Result<Option<(usize, String, Vec<String>)>, String> {
    for (at, line) in input {
        let line = line.map_err(|e| format!("line {at}: cannot be read: {e}"))?;
        let mut words = line.split_whitespace().map(String::from);
        match words.next() {
            Some(first) if !first.starts_with('#') => {
                return Ok(Some((at, first, words.collect())));
            }
            _ => continue,
        }
    }
    Ok(None)
}

fn index(word: &str) -> Option<usize> {
    let digits = word.bytes().all(|byte| byte.is_ascii_digit());
    word.parse().ok().filter(|_| digits)
}

fn double(word: &str) -> Option<f64> {
    let digits = word.len() == 16 && word.bytes().all(|byte| byte.is_ascii_hexdigit());
    let bits = u64::from_str_radix(word, 16).ok().filter(|_| digits)?;
    Some(f64::from_bits(bits))
}

/// The text of an answer.
pub struct Answer(String);

impl Answer {
    pub fn new(keyword: &str) -> Answer {
        Answer(format!("{keyword}\n"))
    }

    /// A line with a label and words.
    pub fn line<T: Display>(&mut self, label: &str, words: impl IntoIterator<Item = T>) {
        self.0.push_str(label);
        for word in words {
            write!(self.0, " {word}").expect("a string takes every word");
        }
        self.0.push('\n');
    }

    pub fn indices(&mut self, label: &str, indices: &[usize]) {
        self.line(label, indices);
    }

    pub fn rows_or_none(&mut self, label: &str, rows: &[usize]) {
        let word = |&row: &usize| match row {
            NONE => "-".to_string(),
            row => row.to_string(),
        };
        self.line(label, rows.iter().map(word));
    }

    pub fn doubles(&mut self, label: &str, doubles: &[f64]) {
        let word = |double: &f64| format!("{:016x}", double.to_bits());
        self.line(label, doubles.iter().map(word));
    }

    /// The whole text, closed by `end`.
    pub fn finish(mut self) -> String {
        self.0.push_str("end\n");
        self.0
    }
}
