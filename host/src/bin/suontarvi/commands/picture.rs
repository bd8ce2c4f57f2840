//! `picture`: the matrix before and after.

use std::path::Path;

use suontarvi::Scaling;

use super::{Call, Command, positions, said};
use crate::arguments::Valued;
use crate::fault::Done;
use crate::json::Json;
use crate::loaded::Loaded;
use crate::many::Many;
use crate::picture::{Panel, svg};
use crate::rule::Rule;
use crate::shown;

pub const PICTURE: Command = Command {
    name: "picture",
    words: &["FILE.mtx", "OUT.svg"],
    options: &[Valued::Rule],
    says: "\
picture    the matrix before and after permutation and scaling, magnitudes as shades, matched entries marked
",
    flags: &[],
    many: Many::makes(".svg"),
    run: picture,
};

fn picture(call: &Call) -> Done {
    let rule = call.rule.unwrap_or(Rule::Natural);
    let file = call.word(0);
    let loaded = Loaded::read(file)?;
    let matrix = loaded.general();
    let Scaling { matching: found, scaled, .. } = loaded.scaling(rule)?;
    let position = positions(&found);
    let to = |row: usize| position.get(row).copied().unwrap_or(row);
    let before: Vec<_> = matrix.entries().map(|(row, column, value)| (row, column, value.abs())).collect();
    let after: Vec<_> = scaled.entries().map(|(row, column, value)| (to(row), column, value.abs())).collect();
    let name = shown::word(&shown::name(Path::new(file).file_name().unwrap_or(file)));
    let (n, count) = (matrix.n(), before.iter().filter(|(_, _, size)| *size > 0.0).count());
    let panels = [
        Panel {
            title: format!("{name}: n = {n}, {count} entries"),
            subtitle: format!("as it is, {}", Panel::magnitudes(&before)),
            matched: found.pairs().collect(),
            entries: before,
        },
        Panel {
            title: format!("permuted and scaled by the rule {}", rule.name()),
            subtitle: format!("{}, {}", said(&found), Panel::magnitudes(&after)),
            matched: found.pairs().map(|(row, column)| (to(row), column)).collect(),
            entries: after,
        },
    ];
    let text = svg(n, &panels);
    let json = || Json::object([("n", found.n().into()), ("matched", found.matched.into())]);
    let told = || format!("{}, {} bytes\n", said(&found), text.len());
    call.made(call.word(1), text.as_bytes(), told, json)
}
