//! `check`: a sheet, whoever made it, beside a matrix.

use std::ffi::OsStr;

use suontarvi::{CostGraph, Matching, NONE, Refusal};

use super::{Call, Command, said, sheet};
use crate::arguments::Valued;
use crate::fault::{Done, Fault};
use crate::json::Json;
use crate::loaded::{Loaded, WholeMatch};
use crate::many::Many;
use crate::{files, places, shortage, shown};

pub const CHECK: Command = Command {
    name: "check",
    words: &["FILE.mtx", "SHEET"],
    options: &[Valued::Out],
    says: "\
check      says whether a sheet, whoever made it, is a complete match of largest product by whole logarithms and its
           duals show it; and within which factor of the largest product of the entries themselves it is proved to be,
           as match --certificate does by natural logarithms. For a sheet that leaves columns without a row: whether any
           match has more pairs, and if none has, which columns compete for which rows; its duals are not tested
",
    flags: &[],
    many: Many::WITH_SHEETS,
    run: check,
};

fn check(call: &Call) -> Done {
    let (file, of) = (call.word(0), call.word(1));
    if files::is_standard(file) && files::is_standard(of) {
        return Err(Fault::misuse("standard input cannot be both the matrix and the sheet"));
    }
    let loaded = Loaded::read(file)?;
    let WholeMatch { graph, .. } = loaded.whole_match()?;
    let found = sheet::any(of, &files::read(of)?)?;
    let refused = |refusal: Refusal| places::of_match(refusal, &graph, &found).of(of);
    if found.perm.contains(&NONE) {
        let shortages = graph.shortages(&found.perm).map_err(refused)?;
        same_cmax(&graph, &found, file).map_err(|fault| fault.of(of))?;
        let said = format!("{}: as many as can be, proved", said(&found));
        let lines = [said].into_iter().chain(shortage::sentences(&shortages));
        let json = || answered(&found, ("shortages", shortage::json(&shortages)));
        return call.answer(|| lines.map(|line| line + "\n").collect(), json);
    }
    graph.check(&found).map_err(refused)?;
    same_cmax(&graph, &found, file).map_err(|fault| fault.of(of))?;
    let certificate = loaded.certificate_of_pairs(&found)?;
    let said = format!("{}: complete, of largest product by whole logarithms, and the duals show it", said(&found));
    let lines = [said].into_iter().chain(certificate.lines());
    call.answer(|| lines.map(|line| line + "\n").collect(), || answered(&found, ("certificate", certificate.json())))
}

/// An accepted sheet as data, with what is proved of it.
fn answered(found: &Matching, proved: (&'static str, Json)) -> Json {
    Json::object([
        ("n", found.n().into()),
        ("accepted", true.into()),
        ("matched", found.matched.into()),
        ("complete", found.is_complete().into()),
        proved,
    ])
}

/// The largest logs of the columns are those of the matrix.
fn same_cmax(graph: &CostGraph, found: &Matching, file: &OsStr) -> Done {
    let pairs = found.cmax.iter().zip(graph.cmax()).enumerate();
    match pairs.into_iter().find(|(_, (theirs, ours))| theirs != ours) {
        None => Ok(()),
        Some((column, (theirs, ours))) => {
            let sentence = format!("cmax is {theirs} and in {} it is {ours}", shown::escaped(&shown::name(file)));
            Err(Fault::new(sentence).at(format!("column {}", column + 1)))
        }
    }
}
