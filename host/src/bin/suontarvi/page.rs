//! The page of a matrix and its match: page.html with the numbers in it. They are base64 of what typed arrays hold, low
//! byte first; the page does the rest.

use suontarvi::{CostGraph, NONE, Refusal};

use crate::json::Json;
use crate::loaded::WholeMatch;

const PAGE: &str = include_str!("page.html");

/// The cost of an entry that is not a tie, since its value is zero.
const NO_COST: u32 = u32::MAX;

/// A self-contained page.
pub fn page(name: &str, kind: &str, found: &WholeMatch, shortages: &Json) -> Result<String, Refusal> {
    // what ends a script must not stand in one
    let data = data(name, kind, found, shortages)?.to_string().replace('<', "\\u003c");
    let (head, rest) = PAGE.split_once("@@TITLE@@").unwrap_or((PAGE, ""));
    let (middle, end) = rest.split_once("@@DATA@@").unwrap_or((rest, ""));
    Ok([head, &escaped(name), middle, &data, end].concat())
}

fn escaped(text: &str) -> String {
    text.replace('&', "&amp;").replace('<', "&lt;").replace('>', "&gt;")
}

fn data(name: &str, kind: &str, found: &WholeMatch, shortages: &Json) -> Result<Json, Refusal> {
    let WholeMatch { matrix, graph, found } = found;
    // the index asks for costs and does not depend on them; zeros are in it, as they are in the matrix
    let (n, count) = (matrix.n(), matrix.values().len());
    let pattern = CostGraph::from_columns(n, matrix.col_ptr().to_vec(), matrix.row_idx().to_vec(), vec![0.0; count])?;
    let index = pattern.row_index();
    let (mut row_ptr, mut places) = (vec![0u32], Vec::with_capacity(count));
    for row in 0..n {
        places.extend(index.row(row).map(|(_, place)| place as u32));
        row_ptr.push(places.len() as u32);
    }
    let row_idx = matrix.row_idx().iter().map(|&row| row as u16);
    // NONE is 0xFFFF in 16 bits
    let perm = found.perm.iter().map(|&row| if row == NONE { u16::MAX } else { row as u16 });
    Ok(Json::object([
        ("name", Json::text(name)),
        ("kind", Json::text(kind)),
        ("n", n.into()),
        ("matched", found.matched.into()),
        ("colPtr", base64(matrix.col_ptr().iter().flat_map(|number| number.to_le_bytes()))),
        ("rowIdx", base64(row_idx.flat_map(u16::to_le_bytes))),
        ("values", doubles(matrix.values())),
        ("cost", base64(costs(matrix.values(), graph.cost()).flat_map(u32::to_le_bytes))),
        ("rowPtr", base64(row_ptr.into_iter().flat_map(u32::to_le_bytes))),
        ("places", base64(places.into_iter().flat_map(u32::to_le_bytes))),
        ("perm", base64(perm.flat_map(u16::to_le_bytes))),
        ("u", doubles(&found.u)),
        ("v", doubles(&found.v)),
        ("shortages", shortages.clone()),
    ]))
}

/// The cost of each value: the graph has those that are not zero, in the same order, and its costs are whole and below
/// 2^28.
fn costs(values: &[f64], costs: &[f64]) -> impl Iterator<Item = u32> {
    let mut costs = costs.iter();
    values.iter().map(move |&value| match value == 0.0 {
        true => NO_COST,
        false => costs.next().map_or(NO_COST, |&cost| cost as u32),
    })
}

fn doubles(numbers: &[f64]) -> Json {
    base64(numbers.iter().flat_map(|number| number.to_le_bytes()))
}

const DIGITS: &[u8; 64] = b"ABCDEFGHIJKLMNOPQRSTUVWXYZabcdefghijklmnopqrstuvwxyz0123456789+/";

fn base64(bytes: impl Iterator<Item = u8>) -> Json {
    let mut text = String::new();
    let mut bytes = bytes.peekable();
    while bytes.peek().is_some() {
        let three = [bytes.next(), bytes.next(), bytes.next()];
        let word = three.iter().fold(0, |word, byte| word << 8 | usize::from(byte.unwrap_or(0)));
        let given = three.iter().flatten().count();
        for at in 0..4 {
            let digit = DIGITS.get(word >> (18 - 6 * at) & 63).copied().unwrap_or(b'=');
            text.push(if at <= given { digit.into() } else { '=' });
        }
    }
    Json::Text(text)
}

#[cfg(test)]
mod tests {
    use super::*;
    use suontarvi::GeneralMatrix;

    fn found(n: usize, entries: &[(u32, u32, f64)]) -> WholeMatch {
        let matrix = GeneralMatrix::from_entries(n, entries.iter().copied()).unwrap();
        let graph = matrix.whole_cost_graph().unwrap();
        let found = graph.matching();
        WholeMatch { matrix, graph, found }
    }

    #[test]
    fn base64_of_all_lengths() {
        for (bytes, text) in [("", ""), ("f", "Zg=="), ("fo", "Zm8="), ("foo", "Zm9v"), ("foob", "Zm9vYg==")] {
            assert_eq!(base64(bytes.bytes()).to_string(), format!("\"{text}\""));
        }
        assert_eq!(base64([0xfb, 0xff].into_iter()).to_string(), "\"+/8=\"");
    }

    #[test]
    fn zeros_have_no_cost() {
        assert_eq!(costs(&[2.0, -0.0, 1.0], &[0.0, 65536.0]).collect::<Vec<_>>(), [0, NO_COST, 65536]);
    }

    #[test]
    fn a_name_stays_a_name() {
        let text = page("</script><b>&", "real general", &found(1, &[(0, 0, 1.0)]), &Json::Null).unwrap();
        assert_eq!(text.matches("</script>").count(), 2);
        assert!(text.contains("<title>&lt;/script&gt;&lt;b&gt;&amp;</title>"));
        assert!(!text.contains("@@"));
        assert!(text.contains("\"name\": \"\\u003c/script>\\u003cb>&\""));
    }

    #[test]
    fn the_page_asks_for_nothing() {
        let text = page("empty", "real general", &found(0, &[]), &Json::Null).unwrap();
        for word in ["http:", "https:", "//cdn", " src=", "@import", "url("] {
            assert!(!text.contains(word), "{word}");
        }
        assert!(text.contains("default-src 'none'"));
    }
}
