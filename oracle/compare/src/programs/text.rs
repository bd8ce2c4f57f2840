//! What the programs print of a match.

use super::plain::Plain;
use oracle::NONE;

/// The program: `ties` prints a report, `pairs` a pattern file.
#[derive(Clone, Copy, PartialEq)]
pub enum Form {
    Report,
    Pairs,
}

pub fn text(form: Form, found: &Plain) -> String {
    match form {
        Form::Report => report(found),
        Form::Pairs => pairs(found),
    }
}

pub fn refused(number: u32) -> String {
    format!("refused {number}\n")
}

fn report(found: &Plain) -> String {
    let mut text = format!("matched {} of {}\n", found.matched, found.perm.len());
    for (k, &row) in found.perm.iter().enumerate() {
        let row = if row == NONE { 0 } else { row + 1 };
        let (u, v) = (whole(found.u[k]), whole(found.v[k]));
        text += &format!("{} {row} {u} {v}\n", k + 1);
    }
    let counts: Vec<String> = found.counts.iter().map(u64::to_string).collect();
    text + &format!("counts {}\n", counts.join(" "))
}

fn pairs(found: &Plain) -> String {
    let n = found.perm.len();
    let mut text = "%%MatrixMarket matrix coordinate pattern general\n".to_string();
    text += &format!("{n} {n} {}\n", found.matched);
    for (k, &row) in found.perm.iter().enumerate() {
        if row != NONE {
            text += &format!("{} {}\n", row + 1, k + 1);
        }
    }
    text
}

/// The whole number that a double stands for.
fn whole(double: f64) -> i64 {
    let number = double as i64;
    assert_eq!(number as f64, double, "duals of whole costs are whole");
    number
}
