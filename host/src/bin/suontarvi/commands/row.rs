//! `row`: the entries of one row.

use suontarvi::{CostGraph, Refusal};

use super::{Call, Command};
use crate::arguments::Valued;
use crate::fault::{Done, Fault};
use crate::json::Json;
use crate::loaded::Loaded;
use crate::many::Many;
use crate::matrix_market::one_row;
use crate::shown;

pub const ROW: Command = Command {
    name: "row",
    words: &["FILE.mtx", "I"],
    options: &[Valued::Out],
    says: "\
row        the entries of row I
",
    flags: &[],
    many: Many::answers(".row.mtx"),
    run: row,
};

fn row(call: &Call) -> Done {
    let file = call.word(0);
    let matrix = Loaded::read(file)?.general();
    let n = matrix.n();
    let word = call.word(1).to_str().filter(|word| word.bytes().all(|byte| byte.is_ascii_digit()));
    let row = match word.map(str::parse::<usize>) {
        Some(Ok(row @ 1..)) if row <= n => row - 1,
        _ => {
            let word = shown::word(&shown::name(call.word(1)));
            let sentence = match n {
                0 => format!("there is no row {word}, the matrix is empty"),
                _ => format!("there is no row {word}, rows are 1 to {n}"),
            };
            return Err(Fault::new(sentence).by(Refusal::IndexRange).of(file));
        }
    };
    // the index asks for costs and does not depend on them
    let costs = vec![0.0; matrix.values().len()];
    let graph = CostGraph::from_columns(n, matrix.col_ptr().to_vec(), matrix.row_idx().to_vec(), costs);
    let index = graph.map_err(|refusal| Fault::refused(refusal).of(file))?.row_index();
    let value = |place: usize| matrix.values().get(place).copied();
    let entries: Vec<(usize, f64)> =
        index.row(row).filter_map(|(column, place)| Some((column, value(place)?))).collect();
    let json = || {
        Json::object([
            ("row", (row + 1).into()),
            ("columns", Json::list(entries.iter().map(|(column, _)| column + 1))),
            ("values", Json::list(entries.iter().map(|(_, value)| *value))),
        ])
    };
    call.answer(|| one_row(n, row, &entries), json)
}
