//! What a program must print of a file: the text of the original's match, or the refusal.

use super::plain::{plain, Plain};
use super::reader::read;
use super::text::{refused, text, Form};
use crate::logs::log;
use oracle::Graph;

/// The number of the refusal, 0 for accepted, and the text.
pub fn expected(form: Form, input: &[u8]) -> (u32, String) {
    match read(input) {
        Ok(sheet) => (0, text(form, &matched(&sheet.graph(|x| log(x.to_bits()))))),
        Err(number) => (number, refused(number)),
    }
}

/// The original's match, with the two counts that it has not.
fn matched(graph: &Graph) -> Plain {
    let (found, second) = (graph.run(), plain(graph));
    let same = found.perm == second.perm
        && (found.u == second.u && found.v == second.v)
        && found.n_matched == second.matched
        && found.counts == second.counts[..5];
    assert!(same, "the plain match is another");
    second
}
