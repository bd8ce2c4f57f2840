//! `match`: the row of each column.

use super::{Call, Command, match_json, rows_from_1, said};
use crate::arguments::{CERTIFICATE, Valued};
use crate::fault::Done;
use crate::json::Json;
use crate::loaded::Loaded;
use crate::many::Many;
use crate::matrix_market::array;
use crate::rule::Rule;

pub const MATCH: Command = Command {
    name: "match",
    words: &["FILE.mtx"],
    options: &[Valued::Rule, Valued::Out],
    says: "\
match      the row of each column, 0 if it has none, as an array: as many pairs as possible and, if complete, of
           largest product. Rules: whole (the default) takes base-two logarithms in whole units of 1/65,536, for which
           this is proved; natural and flat take natural logarithms, as scale does, and may differ if products are
           nearly equal. --certificate also says how near to the largest product a complete match is proved to be:
           within a factor of e to its gap, at the largest digits that are accepted, rounded up. The gap is proved for
           the stored costs: the largest logarithm of the column minus the entry's own. For natural logarithms the
           rounding of ln and of that difference is measured by integers and added, so that the factor holds for the
           entries themselves. For a match that is not complete it says which columns compete for which rows
",
    flags: &[CERTIFICATE],
    many: Many::answers(".perm.mtx"),
    run: match_file,
};

fn match_file(call: &Call) -> Done {
    let rule = call.rule.unwrap_or(Rule::Whole);
    let loaded = Loaded::read(call.word(0))?;
    let found = loaded.matching(rule)?;
    let certificate = match call.certificate {
        true => Some(loaded.certificate(&found, rule)?),
        false => None,
    };
    let text = || {
        let mut comment = format!("{}; line k has the row of column k, 0 if it has none", said(&found));
        if let Some(certificate) = &certificate {
            comment.extend(certificate.lines().iter().map(|line| format!("\n% {line}")));
        }
        let rows = rows_from_1(&found).map(|row| row.unwrap_or(0)).collect();
        array("integer", &comment, &[rows])
    };
    let json = || match (match_json(&found, Some(rule)), &certificate) {
        (Json::Object(fields), Some(certificate)) => {
            Json::object(fields.into_iter().chain([("certificate", certificate.json())]))
        }
        (json, _) => json,
    };
    call.answer(text, json)
}
