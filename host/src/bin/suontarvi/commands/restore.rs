//! `restore`: back from what `apply` wrote: the solution, the matrix or the right-hand sides.

use std::ffi::OsStr;

use suontarvi::{Exponents, Factors, Refusal, product};

use super::{Call, Command};
use crate::arguments::Valued;
use crate::fault::{Done, ENTRY_LINE, Fault};
use crate::json::Json;
use crate::loaded::Loaded;
use crate::many::Many;
use crate::matrix_market::{array, coordinates, shortest};
use crate::vectors::{BESIDE, Side, Vectors, beside, inverse, is_lost, times, word};

pub const RESTORE: Command = Command {
    name: "restore",
    words: &["OUT.mtx"],
    options: &[Valued::Solution, Valued::Rhs, Valued::Out],
    says: "\
restore    undoes apply, from OUT.mtx and the files beside it. --solution Y.mtx has solutions for that matrix; restore
           turns them into solutions for the original one. With --rhs it gives the original right-hand sides, with
           neither the original matrix. Under the rule whole every bit comes back
",
    flags: &[],
    many: Many::answers(".mtx").reads_beside(BESIDE),
    run: restore,
};

fn restore(call: &Call) -> Done {
    let applied = call.word(0);
    if call.solution.is_some() && call.rhs.is_some() {
        return Err(Fault::misuse("restore takes --solution or --rhs, and not both"));
    }
    // a solution has its own length, and without the matrix nothing else says n
    let loaded = Loaded::read(applied)?;
    let n = loaded.n();
    let by = factors(&beside(applied, "factors"), n)?;
    match (call.solution, call.rhs) {
        (Some(solution), _) => {
            let columns = Vectors::read(solution, n)?.columns;
            let restored = columns.iter().map(|column| times(column, &by, Side::Columns));
            let restored = restored.collect::<Result<Vec<_>, _>>().map_err(|fault| fault.of(solution))?;
            answer_vectors(call, "the solution of the matrix as it was", &restored)
        }
        (None, Some(rhs)) => {
            let row_at = permutation(&beside(applied, "perm"), n)?;
            let columns = Vectors::read(rhs, n)?.columns;
            let back = inverse(&by);
            let restored = columns.iter().map(|column| times(&moved(column, &row_at), &back, Side::Rows));
            let restored = restored.collect::<Result<Vec<_>, _>>().map_err(|fault| fault.of(rhs))?;
            answer_vectors(call, "the right-hand sides as they were", &restored)
        }
        (None, None) => {
            let row_at = permutation(&beside(applied, "perm"), n)?;
            answer_matrix(call, &loaded, &row_at, &inverse(&by))
        }
    }
}

fn answer_vectors(call: &Call, comment: &str, columns: &[Vec<f64>]) -> Done {
    let text = || {
        let words: Vec<Vec<String>> =
            columns.iter().map(|column| column.iter().map(|&number| shortest(number)).collect()).collect();
        array("real", comment, &words)
    };
    call.answer(text, || {
        let lists = columns.iter().map(|column| Json::list(column.iter().copied())).collect();
        Json::object([("columns", Json::List(lists))])
    })
}

/// Column by column: each entry goes back to its row, and loses its factors.
fn answer_matrix(call: &Call, loaded: &Loaded, row_at: &[usize], back: &Factors) -> Done {
    let matrix = loaded.general();
    let file = call.word(0);
    let entries: Vec<(usize, usize, f64)> = matrix
        .entries()
        .map(|(place, column, value)| (row_at.get(place).copied().unwrap_or(place), column, value))
        .collect();
    let restored = entries.iter().map(|&(row, column, value)| {
        let fault = |fault: Fault| fault.at(format!("row {}, column {}", row + 1, column + 1)).of(file);
        Ok((row, column, value_back(value, row, column, back).map_err(fault)?))
    });
    let mut restored = restored.collect::<Result<Vec<_>, Fault>>()?;
    restored.sort_by_key(|&(row, column, _)| (column, row));
    let comment = "the matrix as it was";
    call.answer(
        || coordinates(matrix.n(), comment, &restored),
        || {
            Json::object([
                ("n", matrix.n().into()),
                ("rows", Json::list(restored.iter().map(|(row, _, _)| row + 1))),
                ("columns", Json::list(restored.iter().map(|(_, column, _)| column + 1))),
                ("values", Json::list(restored.iter().map(|(_, _, value)| *value))),
            ])
        },
    )
}

/// One value without its factors.
fn value_back(value: f64, row: usize, column: usize, back: &Factors) -> Result<f64, Fault> {
    let restored = match back {
        Factors::Powers(Exponents { rows, columns }) => {
            let exponent = rows.get(row).zip(columns.get(column)).map_or(0, |(of_row, of_column)| of_row + of_column);
            let one = Factors::Powers(Exponents { rows: vec![exponent], columns: vec![0] });
            times(&[value], &one, Side::Rows)?.first().copied()
        }
        Factors::Reals { rows, columns } => {
            rows.get(row).zip(columns.get(column)).map(|(of_row, of_column)| product([*of_row, value, *of_column]))
        }
    };
    match restored {
        Some(restored) if !is_lost(value, restored) => Ok(restored),
        _ => Err(Fault::refused(Refusal::ValueNotNormal)),
    }
}

/// Numbers back from their places to their rows.
fn moved(numbers: &[f64], row_at: &[usize]) -> Vec<f64> {
    let mut back = vec![0.0; numbers.len()];
    for (number, &row) in numbers.iter().zip(row_at) {
        if let Some(to) = back.get_mut(row) {
            *to = *number;
        }
    }
    back
}

/// The row at each place, from 0: every row once.
fn permutation(file: &OsStr, n: usize) -> Result<Vec<usize>, Fault> {
    let read = Vectors::read(file, n)?;
    let [column] = &read.columns[..] else {
        return Err(Fault::new("a permutation has one column").of(file));
    };
    let mut free = vec![true; n];
    let mut row_at = Vec::with_capacity(n);
    for &number in column {
        let row = (number as usize).wrapping_sub(1);
        match free.get_mut(row) {
            Some(free) if *free && number.fract() == 0.0 => *free = false,
            _ => {
                let sentence = format!("{} is not a row, or occurs twice", word(number));
                return Err(Fault::new(sentence).by(ENTRY_LINE).of(file));
            }
        }
        row_at.push(row);
    }
    Ok(row_at)
}

/// Factors of rows and columns; integers are exponents of two.
fn factors(file: &OsStr, n: usize) -> Result<Factors, Fault> {
    let Vectors { integer, columns } = Vectors::read(file, n)?;
    let [rows, columns] = <[Vec<f64>; 2]>::try_from(columns)
        .map_err(|_| Fault::new("factors have two columns, those of rows and of columns").of(file))?;
    if !integer {
        if let Some(factor) = rows.iter().chain(&columns).find(|factor| **factor <= 0.0) {
            let sentence = format!("the factor {} is not above zero", word(*factor));
            return Err(Fault::new(sentence).by(ENTRY_LINE).of(file));
        }
        if let Some(factor) = rows.iter().chain(&columns).find(|factor| (1.0 / **factor).is_infinite()) {
            let sentence = format!("the inverse of the factor {} is beyond the range of doubles", shortest(*factor));
            return Err(Fault::new(sentence).by(ENTRY_LINE).of(file));
        }
        return Ok(Factors::Reals { rows, columns });
    }
    let limit = f64::from(MOST_EXPONENT);
    if let Some(exponent) = rows.iter().chain(&columns).find(|exponent| exponent.abs() > limit) {
        let sentence = format!("the exponent {} is beyond {MOST_EXPONENT}", word(*exponent));
        return Err(Fault::new(sentence).by(Refusal::ExponentRange).of(file));
    }
    let whole = |numbers: Vec<f64>| numbers.into_iter().map(|number| number as i32).collect();
    Ok(Factors::Powers(Exponents { rows: whole(rows), columns: whole(columns) }))
}

const MOST_EXPONENT: i32 = 67_108_864;
