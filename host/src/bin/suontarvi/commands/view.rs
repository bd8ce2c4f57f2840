//! `view`: the matrix and its match as a page for a browser.

use std::path::Path;

use suontarvi::Refusal;

use super::{Call, Command, said};
use crate::fault::{Done, Fault};
use crate::json::Json;
use crate::loaded::Loaded;
use crate::many::Many;
use crate::{page, shortage, shown};

pub const VIEW: Command = Command {
    name: "view",
    words: &["FILE.mtx", "OUT.html"],
    options: &[],
    says: "\
view       a self-contained page for a browser: the matrix before and after; click a row or a column, or type its
           number, to see its ties with value, cost, u, v and slack, by whole logarithms; which rows and columns are
           unmatched, and why. #row=12 or #column=7 at the end of the address selects
",
    flags: &[],
    many: Many::makes(".html"),
    run: view,
};

fn view(call: &Call) -> Done {
    let file = call.word(0);
    let loaded = Loaded::read(file)?;
    let found = loaded.whole_match()?;
    let name = shown::word(&shown::name(Path::new(file).file_name().unwrap_or(file)));
    let refused = |refusal: Refusal| Fault::refused(refusal).of(file);
    let shortages = shortage::json(&found.graph.shortages(&found.found.perm).map_err(refused)?);
    let text = page::page(&name, loaded.kind(), &found, &shortages).map_err(refused)?;
    let found = &found.found;
    let json = || {
        let shortages = ("shortages", shortages.clone());
        Json::object([("n", found.n().into()), ("matched", found.matched.into()), shortages])
    };
    let told = || format!("{}, {} bytes\n", said(found), text.len());
    call.made(call.word(1), text.as_bytes(), told, json)
}
