//! `apply`: the permuted and scaled matrix as a file, with what takes its solution back beside it.

use std::ffi::OsStr;
use std::path::Path;

use suontarvi::{Columns, Factors, Refusal, Scaling};

use super::{Call, Command, positions, said};
use crate::arguments::{NO_PERMUTE, Valued};
use crate::fault::{Done, Fault};
use crate::files;
use crate::json::Json;
use crate::loaded::Loaded;
use crate::many::Many;
use crate::matrix_market::{array, coordinates, shortest};
use crate::rule::Rule;
use crate::shown;
use crate::vectors::{BESIDE, Side, Vectors, beside, is_lost, times};

pub const APPLY: Command = Command {
    name: "apply",
    words: &["FILE.mtx"],
    options: &[Valued::Rule, Valued::Out, Valued::Rhs],
    says: "\
apply      writes the permuted and scaled matrix to OUT.mtx: row k is the row of column k in the match (free rows go
           to free columns in order), times its factor, each column times its own. Beside it OUT.perm.mtx has the row
           at each place, OUT.factors.mtx the factors of rows and columns, or exponents of two for the rule whole, which
           rounds nothing. The default rule is natural. --rhs B.mtx writes the right-hand sides, permuted and scaled
           like the matrix, to OUT.rhs.mtx. --no-permute leaves the rows where they are
",
    flags: &[NO_PERMUTE],
    many: Many::answers(".mtx").writes_beside(BESIDE),
    run: apply,
};

fn apply(call: &Call) -> Done {
    let Some(out) = call.out.filter(|out| !files::is_standard(out)) else {
        return Err(Fault::misuse("apply needs -o OUT.mtx, a file: others are written beside it"));
    };
    let file = call.word(0);
    let rule = call.rule.unwrap_or(Rule::Natural);
    let loaded = Loaded::read(file)?;
    let Scaling { matching: found, factors: by, scaled } = loaded.scaling(rule)?;
    nothing_lost(&loaded.general(), &scaled).map_err(|fault| fault.of(file))?;
    let n = found.n();
    let place: Vec<usize> = if call.permute { positions(&found) } else { (0..n).collect() };
    let row_at = rows_at(&place);
    let right = call.rhs.map(|rhs| sides(rhs, &by, &row_at)).transpose()?;
    let name = shown::word(&shown::name(Path::new(file).file_name().unwrap_or(file)));
    let permuted = if call.permute { "permuted and scaled" } else { "scaled" };
    let comment = format!("{name} {permuted} ({}), {}", rule.name(), said(&found));
    let to = |row: usize| place.get(row).copied().unwrap_or(row);
    let moved: Vec<_> = scaled.entries().map(|(row, column, value)| (to(row), column, value)).collect();
    let mut made = vec![(out.to_os_string(), coordinates(n, &comment, &moved))];
    let perm = array("integer", "line k has the row of the matrix that is at place k", &[row_at]);
    made.push((beside(out, "perm"), perm));
    made.push((beside(out, "factors"), factors(&by)));
    made.extend(right.map(|text| (beside(out, "rhs"), text)));
    call.put(&made.iter().map(|(file, text)| (file.as_os_str(), text.as_bytes())).collect::<Vec<_>>())?;
    let names: Vec<String> = made.iter().map(|(file, _)| shown::name(file)).collect();
    let shown: Vec<String> = names.iter().map(|name| shown::escaped(name)).collect();
    let json = || {
        Json::object([
            ("n", n.into()),
            ("matched", found.matched.into()),
            ("complete", found.is_complete().into()),
            ("rule", Json::text(rule.name())),
            ("permuted", call.permute.into()),
            ("files", Json::List(names.iter().map(|name| Json::text(name)).collect())),
        ])
    };
    call.tell(|| format!("{}; {}\n", said(&found), shown.join(", ")), json)
}

/// Every entry other than zero is a normal number after scaling.
fn nothing_lost(before: &Columns, after: &Columns) -> Done {
    let mut pairs = before.entries().zip(after.values());
    match pairs.find(|((_, _, before), after)| is_lost(*before, **after)) {
        None => Ok(()),
        Some(((row, column, _), _)) => {
            let place = format!("row {}, column {}", row + 1, column + 1);
            Err(Fault::refused(Refusal::ValueNotNormal).at(place))
        }
    }
}

/// The row at each place, from 1.
fn rows_at(place: &[usize]) -> Vec<usize> {
    let mut row_at = vec![0; place.len()];
    for (row, &place) in place.iter().enumerate() {
        if let Some(at) = row_at.get_mut(place) {
            *at = row + 1;
        }
    }
    row_at
}

/// Factors of rows, then of columns.
fn factors(by: &Factors) -> String {
    match by {
        Factors::Reals { rows, columns } => {
            let words = |factors: &[f64]| factors.iter().map(|&factor| shortest(factor)).collect();
            array("real", "factors of rows, then those of columns", &[words(rows), words(columns)])
        }
        Factors::Powers(by) => {
            let comment = "exponents of two of rows, then those of columns";
            array("integer", comment, &[by.rows.clone(), by.columns.clone()])
        }
    }
}

/// Right-hand sides: times the factors of the rows, each row to its place. `row_at` counts from 1.
fn sides(file: &OsStr, by: &Factors, row_at: &[usize]) -> Result<String, Fault> {
    let read = Vectors::read(file, row_at.len())?;
    let moved = |column: &Vec<f64>| {
        let scaled = times(column, by, Side::Rows).map_err(|fault| fault.of(file))?;
        Ok(row_at.iter().filter_map(|&row| scaled.get(row.wrapping_sub(1)).map(|&number| shortest(number))).collect())
    };
    let columns = read.columns.iter().map(moved).collect::<Result<Vec<Vec<String>>, Fault>>()?;
    Ok(array("real", "right-hand sides, permuted and scaled with the matrix", &columns))
}
