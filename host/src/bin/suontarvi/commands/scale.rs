//! `scale`: factors or powers of two, and the permutation that they belong to.

use suontarvi::{Factors, Scaling};

use super::{Call, Command, rows_from_1, said};
use crate::arguments::Valued;
use crate::fault::Done;
use crate::json::Json;
use crate::loaded::Loaded;
use crate::many::Many;
use crate::matrix_market::{array, shortest};
use crate::rule::Rule;

pub const SCALE: Command = Command {
    name: "scale",
    words: &["FILE.mtx"],
    options: &[Valued::Rule, Valued::Out],
    says: "\
scale      an array of three columns: the factors of the rows, those of the columns, and the row of each column in the
           match, 0 if it has none. Rules: natural (the default; identity is a synonym) brings the matched entries of a
           complete match to 1 and no other above 1, except for rounding. flat, for symmetric files, gives unmatched
           rows a factor that brings their largest entry to a matched row to 1; under natural they get the factor 1.
           whole gives exponents of powers of two, which round nothing; those of a complete match bring all entries
           below 2 and the matched ones above 1/4.
           Factors are clamped to e^-709 and e^709, so at the ends of the range of doubles a matched entry may differ
           from 1: for the matrix with 1e308 in row 1, column 1 and 1e-308 elsewhere it is 1.217
",
    flags: &[],
    many: Many::answers(".factors.mtx"),
    run: scale,
};

fn scale(call: &Call) -> Done {
    let rule = call.rule.unwrap_or(Rule::Natural);
    let scaling = Loaded::read(call.word(0))?.scaling(rule)?;
    call.answer(|| text(&scaling), || json(&scaling, rule))
}

fn text(Scaling { matching, factors, .. }: &Scaling) -> String {
    let rows = rows_from_1(matching).map(|row| row.unwrap_or(0).to_string()).collect();
    let (field, what, of_rows, of_columns) = match factors {
        Factors::Reals { rows, columns } => {
            let words = |factors: &[f64]| factors.iter().map(|&factor| shortest(factor)).collect();
            ("real", "factors", words(rows), words(columns))
        }
        Factors::Powers(by) => {
            let words = |exponents: &[i32]| exponents.iter().map(i32::to_string).collect();
            ("integer", "exponents", words(&by.rows), words(&by.columns))
        }
    };
    let comment = format!("{}; {what} of rows, those of columns, the row of each column", said(matching));
    array(field, &comment, &[of_rows, of_columns, rows])
}

fn json(Scaling { matching, factors, .. }: &Scaling, rule: Rule) -> Json {
    let (of_rows, rows, of_columns, columns) = match factors {
        Factors::Reals { rows, columns } => {
            ("row_factors", Json::list(rows.clone()), "column_factors", Json::list(columns.clone()))
        }
        Factors::Powers(by) => {
            ("row_exponents", Json::list(by.rows.clone()), "column_exponents", Json::list(by.columns.clone()))
        }
    };
    Json::object([
        ("n", matching.n().into()),
        ("matched", matching.matched.into()),
        ("complete", matching.is_complete().into()),
        ("rule", Json::text(rule.name())),
        ("rows", Json::list(rows_from_1(matching))),
        (of_rows, rows),
        (of_columns, columns),
    ])
}
