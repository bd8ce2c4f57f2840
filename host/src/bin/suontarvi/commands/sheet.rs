//! `sheet write`, `sheet read` and `sheet canonical`: a match as a file.

use std::ffi::OsStr;

use suontarvi::Matching;

use super::{Call, Command, match_json, rows_from_1, said};
use crate::arguments::Valued;
use crate::fault::{Done, Fault};
use crate::json::Json;
use crate::loaded::{Loaded, WholeMatch};
use crate::many::Many;
use crate::matrix_market::{array, shortest};
use crate::{files, places};

pub const WRITE: Command = Command {
    name: "sheet write",
    words: &["FILE.mtx", "SHEET"],
    options: &[],
    says: "\
sheet      the match by whole logarithms as a sheet file: write makes one from a matrix; read gives row, u, v and cmax
           of each column as an array of four columns; canonical says whether a sheet is the canonical one of its match,
           or writes that one
",
    flags: &[],
    many: Many::makes(".sheet"),
    run: write,
};

pub const READ: Command = Command {
    name: "sheet read",
    words: &["SHEET"],
    options: &[Valued::Out],
    says: "",
    flags: &[],
    many: Many::answers(".sheet.mtx").of_sheets(),
    run: read,
};

pub const CANONICAL: Command = Command {
    name: "sheet canonical",
    words: &["SHEET", "[OUT]"],
    options: &[Valued::Out],
    says: "",
    flags: &[],
    many: Many::makes(".sheet").of_sheets().or_tells(),
    run: canonical,
};

fn write(call: &Call) -> Done {
    let file = call.word(0);
    let WholeMatch { found, .. } = Loaded::read(file)?.whole_match()?;
    let bytes = found.to_sheet().map_err(|refusal| Fault::refused(refusal).of(file))?;
    let text = || format!("{}, {} bytes\n", said(&found), bytes.len());
    let json =
        || Json::object([("n", found.n().into()), ("matched", found.matched.into()), ("bytes", bytes.len().into())]);
    call.made(call.word(1), &bytes, text, json)
}

/// The match of a sheet in any order.
pub fn any(sheet: &OsStr, bytes: &[u8]) -> Result<Matching, Fault> {
    Matching::from_sheet(bytes).map_err(|refusal| places::of_sheet(refusal, bytes, false).of(sheet))
}

fn read(call: &Call) -> Done {
    let sheet = call.word(0);
    let found = any(sheet, &files::read(sheet)?)?;
    let text = || {
        let comment = format!(
            "{}; of each column its row, 0 if it has none, u of the row with its number, v, cmax",
            said(&found)
        );
        let words = |numbers: &[f64]| numbers.iter().map(|&number| shortest(number)).collect();
        let rows = rows_from_1(&found).map(|row| row.unwrap_or(0).to_string()).collect();
        array("real", &comment, &[rows, words(&found.u), words(&found.v), words(&found.cmax)])
    };
    call.answer(text, || match_json(&found, None))
}

/// Without another file: whether the sheet is canonical.
fn canonical(call: &Call) -> Done {
    if call.optional(1).is_some() && call.out.is_some() {
        return Err(Fault::misuse("sheet canonical takes OUT or --out, and not both"));
    }
    let sheet = call.word(0);
    let bytes = files::read(sheet)?;
    let Some(other) = call.optional(1) else {
        let found = Matching::from_canonical_sheet(&bytes)
            .map_err(|refusal| places::of_sheet(refusal, &bytes, true).of(sheet))?;
        let json = || Json::object([("canonical", true.into()), ("matched", found.matched.into())]);
        return call.answer(|| format!("{}, canonical\n", said(&found)), json);
    };
    let found = any(sheet, &bytes)?;
    let written = found.to_sheet().map_err(|refusal| Fault::refused(refusal).of(sheet))?;
    let same = written == bytes;
    let text = || format!("{}, {} bytes{}\n", said(&found), written.len(), if same { ", the same" } else { "" });
    call.made(other, &written, text, || Json::object([("bytes", written.len().into()), ("same", same.into())]))
}
