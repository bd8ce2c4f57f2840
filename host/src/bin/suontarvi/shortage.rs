//! Which columns compete for which rows, in words and as data.

use suontarvi::Shortage;

use crate::json::Json;

/// The most numbers of a list, and the most sentences, that a text shows.
const NUMBERS: usize = 20;
const SENTENCES: usize = 20;

/// A sentence for each, columns without entries in one; zeros do not count as entries.
pub fn sentences(shortages: &[Shortage]) -> Vec<String> {
    let empty: Vec<usize> =
        shortages.iter().filter(|part| part.rows.is_empty()).flat_map(|part| part.columns.clone()).collect();
    let mut said = Vec::new();
    if !empty.is_empty() {
        let has = if empty.len() == 1 { "has" } else { "have" };
        said.push(format!("{} {has} no entry other than zero", listed("column", &empty)));
    }
    said.extend(shortages.iter().filter(|part| !part.rows.is_empty()).map(sentence));
    if said.len() > SENTENCES {
        let more = said.len() - SENTENCES;
        said.truncate(SENTENCES);
        said.push(format!("and {more} more such sets of columns"));
    }
    said
}

/// Columns that share rows: at least two.
fn sentence(part: &Shortage) -> String {
    let (columns, rows, empty) = (listed("column", &part.columns), listed("row", &part.rows), part.empty());
    let stay = if empty == 1 { "stays" } else { "stay" };
    format!("{columns} have entries only in {rows}: {empty} of them {stay} without a row")
}

/// "column 3", "columns 3 and 8", "columns 3, 8 and 9": from 1, cut if long.
fn listed(word: &str, from_0: &[usize]) -> String {
    let shown: Vec<String> = from_0.iter().take(NUMBERS).map(|at| (at + 1).to_string()).collect();
    match (shown.as_slice(), from_0.len()) {
        ([one], 1) => format!("{word} {one}"),
        (shown, count) if count > NUMBERS => format!("{word}s {}, ... ({count} in all)", shown.join(", ")),
        ([head @ .., last], _) => format!("{word}s {} and {last}", head.join(", ")),
        ([], _) => format!("no {word}s"),
    }
}

/// All of them, rows and columns from 1.
pub fn json(shortages: &[Shortage]) -> Json {
    let from_1 = |numbers: &[usize]| Json::list(numbers.iter().map(|at| at + 1));
    Json::list(shortages.iter().map(|part| {
        Json::object([("columns", from_1(&part.columns)), ("rows", from_1(&part.rows)), ("empty", part.empty().into())])
    }))
}

#[cfg(test)]
mod tests {
    use super::*;

    fn part(columns: &[usize], rows: &[usize]) -> Shortage {
        Shortage { columns: columns.to_vec(), rows: rows.to_vec() }
    }

    #[test]
    fn in_words() {
        assert_eq!(sentences(&[]), Vec::<String>::new());
        assert_eq!(sentences(&[part(&[3], &[])]), ["column 4 has no entry other than zero"]);
        let parts = [part(&[0], &[]), part(&[5], &[]), part(&[2, 7, 8], &[1, 4]), part(&[1, 3, 4], &[0])];
        let said = [
            "columns 1 and 6 have no entry other than zero",
            "columns 3, 8 and 9 have entries only in rows 2 and 5: 1 of them stays without a row",
            "columns 2, 4 and 5 have entries only in row 1: 2 of them stay without a row",
        ];
        assert_eq!(sentences(&parts), said);
    }

    #[test]
    fn long_ones_are_cut() {
        let many: Vec<usize> = (0..30).collect();
        let said = sentences(&[part(&many, &[0])]);
        assert!(said[0].starts_with("columns 1, 2, 3, ") && said[0].contains(", 20, ... (30 in all) have entries"));
        let said = sentences(&vec![part(&[1, 2], &[0]); 25]);
        assert_eq!((said.len(), said[20].as_str()), (21, "and 5 more such sets of columns"));
    }

    #[test]
    fn as_data() {
        let data = json(&[part(&[3], &[]), part(&[2, 7, 8], &[1, 4])]).to_string();
        let said = "[{\"columns\": [4], \"rows\": [], \"empty\": 1}, \
                    {\"columns\": [3, 8, 9], \"rows\": [2, 5], \"empty\": 1}]";
        assert_eq!(data, said);
    }
}
