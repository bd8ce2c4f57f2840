//! Where in a file a refusal of the library holds. The library says what is wrong; this walk over the same data, in
//! the order of the library's tests, finds the place for the sentence.

use suontarvi::{Columns, CostGraph, Exponents, Matching, NONE, Refusal};

use crate::fault::Fault;
use crate::matrix_market::Text;

/// Row and column of an entry, and its line.
fn entry_place(text: &Text, (row, column): (usize, usize)) -> String {
    let place = format!("row {}, column {}", row + 1, column + 1);
    match text.line_of(row, column) {
        Some(line) => format!("line {line}, {place}"),
        None => place,
    }
}

pub const SUM_BEYOND: &str = "the sum of the lines of this place is beyond the range of doubles";

/// A refused graph: the first value that is not finite. No line of a file has one, but a sum of lines may.
pub fn of_values(refusal: Refusal, text: &Text, matrix: &Columns) -> Fault {
    let mut entries = matrix.entries();
    match entries.find(|(_, _, value)| !value.is_finite()) {
        Some((row, column, _)) => Fault::new(SUM_BEYOND).by(refusal).at(entry_place(text, (row, column))),
        None => Fault::refused(refusal),
    }
}

/// Refused powers of two: the first value that is not normal, before or after.
pub fn of_powers(refusal: Refusal, text: &Text, matrix: &Columns, by: &Exponents) -> Fault {
    let bad = |&(row, column, value): &(usize, usize, f64)| {
        let exponent = |of: &[i32], at: usize| of.get(at).copied().map_or(0, i64::from);
        let field = (value.to_bits() >> 52 & 0x7FF) as i64;
        let after = field + exponent(&by.rows, row) + exponent(&by.columns, column);
        value != 0.0 && !(value.is_normal() && (1..2047).contains(&after))
    };
    let mut entries = matrix.entries();
    match entries.find(bad) {
        Some((row, column, value)) => {
            let sentence = match value.is_normal() {
                true => format!("the value {value:e} is not a normal number after scaling by powers of two"),
                false => format!("the value {value:e} is too small for powers of two: it is not a normal number"),
            };
            Fault::new(sentence).by(refusal).at(entry_place(text, (row, column)))
        }
        None => Fault::refused(refusal),
    }
}

/// A match that a check refuses: which of the refusal's cases it is, and of what column, row or both.
pub fn of_match(refusal: Refusal, graph: &CostGraph, found: &Matching) -> Fault {
    let told = match refusal {
        Refusal::SliceLength => {
            let sentence = format!("the sheet has {} columns and the matrix {}", found.n(), graph.n());
            return Fault::new(sentence).by(refusal);
        }
        Refusal::IncompleteMatching => unpaired(graph, found),
        Refusal::InfeasibleDuals => infeasible(graph, found),
        Refusal::LoosePair => loose(graph, found),
        Refusal::NotLargest => not_largest(graph, found),
        _ => None,
    };
    match told {
        Some((place, sentence)) => Fault::new(sentence).by(refusal).at(place),
        None => Fault::refused(refusal),
    }
}

/// A place and what is wrong there.
type Told = Option<(String, &'static str)>;

fn pair_place(row: usize, column: usize) -> String {
    format!("row {}, column {}", row + 1, column + 1)
}

/// The entries of each column: rows and costs.
fn columns(graph: &CostGraph) -> impl Iterator<Item = (&[u32], &[f64])> {
    let bounds = graph.col_ptr().windows(2);
    bounds.map(|bounds| {
        let places = match *bounds {
            [from, to] => from as usize..to as usize,
            _ => 0..0,
        };
        let rows = graph.row_idx().get(places.clone()).unwrap_or_default();
        (rows, graph.cost().get(places).unwrap_or_default())
    })
}

/// Row, column and cost of each entry.
fn costs(graph: &CostGraph) -> impl Iterator<Item = (usize, usize, f64)> {
    columns(graph).enumerate().flat_map(|(column, (rows, costs))| {
        rows.iter().zip(costs).map(move |(&row, &cost)| (row as usize, column, cost))
    })
}

/// The first pair that is not an entry. A column without a row is judged by whether it could have one.
fn unpaired(graph: &CostGraph, found: &Matching) -> Told {
    let mut taken = vec![false; graph.n()];
    let columns = found.perm.iter().zip(columns(graph)).enumerate();
    for (column, (&row, (rows, _))) in columns.filter(|(_, (row, _))| **row != NONE) {
        let place = pair_place(row as usize, column);
        match taken.get_mut(row as usize) {
            None => return Some((place, "the matrix has no such row")),
            Some(true) => return Some((place, "the row has two columns")),
            Some(_) if rows.binary_search(&row).is_err() => {
                return Some((place, "the pair is not an entry of the matrix"));
            }
            Some(taken) => *taken = true,
        }
    }
    None
}

fn infeasible(graph: &CostGraph, found: &Matching) -> Told {
    let bad = |dual: &f64| match *dual {
        dual if !dual.is_finite() || dual.fract() != 0.0 => Some("the dual is not a whole number"),
        dual if dual.abs() > (1u64 << 50) as f64 => Some("the dual is above 2^50 in size"),
        _ => None,
    };
    let first = |duals: &[f64]| duals.iter().enumerate().find_map(|(at, dual)| bad(dual).map(|what| (at + 1, what)));
    if let Some((row, what)) = first(&found.u) {
        return Some((format!("u of row {row}"), what));
    }
    if let Some((column, what)) = first(&found.v) {
        return Some((format!("v of column {column}"), what));
    }
    let above = costs(graph).find(|&(row, column, cost)| sum(found, row, column).is_some_and(|sum| sum > cost));
    above.map(|(row, column, _)| (pair_place(row, column), "u + v is above the cost of this entry"))
}

/// u of the row and v of the column.
fn sum(found: &Matching, row: usize, column: usize) -> Option<f64> {
    Some(found.u.get(row)? + found.v.get(column)?)
}

fn loose(graph: &CostGraph, found: &Matching) -> Told {
    let below = |&(row, column, cost): &(usize, usize, f64)| {
        let paired = found.perm.get(column).is_some_and(|&of| of as usize == row);
        paired && sum(found, row, column).is_some_and(|sum| sum < cost)
    };
    let found = costs(graph).find(below);
    found.map(|(row, column, _)| (pair_place(row, column), "u + v of this matched pair is below its cost"))
}

/// The first column without a row from which an alternating path leads to a free row. Columns that one column could
/// not leave to a free row need not be tried again from another.
fn not_largest(graph: &CostGraph, found: &Matching) -> Told {
    let rows: Vec<&[u32]> = columns(graph).map(|(rows, _)| rows).collect();
    let mut column_of = vec![None; graph.n()];
    for (row, column) in found.pairs() {
        if let Some(of) = column_of.get_mut(row) {
            *of = Some(column);
        }
    }
    let mut seen = vec![false; graph.n()];
    let free = found.perm.iter().enumerate().filter(|(_, row)| **row == NONE).map(|(column, _)| column);
    for start in free {
        let mut waiting = vec![start];
        while let Some(column) = waiting.pop() {
            for &row in rows.get(column).copied().unwrap_or_default() {
                match (seen.get_mut(row as usize), column_of.get(row as usize)) {
                    (Some(seen), Some(&of)) if !*seen => {
                        *seen = true;
                        let Some(of) = of else {
                            let sentence = "the column has no row, and another matching has more pairs";
                            return Some((format!("column {}", start + 1), sentence));
                        };
                        waiting.push(of);
                    }
                    _ => {}
                }
            }
        }
    }
    None
}

/// A sheet that a reader refuses: the record, from 1, the byte at which it begins, from 0, and what is wrong there.
pub fn of_sheet(refusal: Refusal, bytes: &[u8], canonical: bool) -> Fault {
    let told = |place: String, what: &str| Fault::new(what).by(refusal).at(place);
    let [low, high, ref records @ ..] = *bytes else {
        return match bytes.is_empty() {
            true => told("byte 0".into(), "the sheet is empty"),
            false => told("byte 1".into(), "the sheet is cut short: even its n is missing"),
        };
    };
    let n = u16::from_le_bytes([low, high]);
    if n > 4096 {
        return told(
            "byte 0".into(),
            &format!("the n of the sheet is {n}, above 4,096: it is not a sheet, or too large"),
        );
    }
    let (mut rest, mut record, mut columns) = (records, 1, Vec::new());
    while !rest.is_empty() {
        match first_record(rest, n, canonical, &columns) {
            Ok((column, behind)) => {
                columns.push(column);
                (rest, record) = (behind, record + 1);
            }
            Err((_, what)) => return told(format!("record {record} at byte {}", bytes.len() - rest.len()), what),
        }
    }
    Fault::refused(refusal)
}

/// The column of the first record and what follows it, if a reader takes it after records of these columns; else the
/// refusal and its case.
fn first_record<'a>(
    bytes: &'a [u8],
    n: u16,
    canonical: bool,
    before: &[u16],
) -> Result<(u16, &'a [u8]), (Refusal, &'static str)> {
    const CUT: (Refusal, &str) = (Refusal::SheetCut, "the sheet is cut short in this record");
    let (&[low, high, map], fields) = bytes.split_first_chunk().ok_or(CUT)?;
    let column = u16::from_le_bytes([low, high]);
    let (row, fields) = fields.split_at_checked(2 * usize::from(map & 1)).ok_or(CUT)?;
    let (numbers, rest) = fields.split_at_checked(8 * (map >> 1 & 7).count_ones() as usize).ok_or(CUT)?;
    let row_beyond = matches!(*row, [low, high] if u16::from_le_bytes([low, high]) >= n);
    let index = |what| Err((Refusal::SheetIndex, what));
    let needless = |what| Err((Refusal::NeedlessField, what));
    match (canonical, before.last()) {
        _ if map > 15 => index("the record has an unknown bit"),
        _ if column >= n => index("the column is not below the sheet's n"),
        _ if row_beyond => index("the row is not below the sheet's n"),
        (false, _) if before.contains(&column) => Err((Refusal::PatchTwice, "the sheet gives this column twice")),
        (true, _) if map == 0 => needless("the record is empty, which is not canonical"),
        (true, _) if numbers.chunks(8).any(|number| number == [0; 8]) => {
            needless("the record has a number that is zero, which is not canonical")
        }
        (true, Some(&last)) if last >= column => {
            Err((Refusal::PatchOrder, "the columns do not rise, which is not canonical"))
        }
        _ => Ok((column, rest)),
    }
}

#[cfg(test)]
mod tests {
    use super::*;

    /// The refusal that the walk would answer itself.
    fn first_refusal(sheet: &[u8], canonical: bool) -> Option<Refusal> {
        let Some(mut rest) = sheet.get(2..) else {
            return Some(Refusal::SheetCut);
        };
        let mut columns = Vec::new();
        while !rest.is_empty() {
            match first_record(rest, 3, canonical, &columns) {
                Ok((column, behind)) => {
                    columns.push(column);
                    rest = behind;
                }
                Err((refusal, _)) => return Some(refusal),
            }
        }
        None
    }

    /// A place is found exactly where a reader refuses, on sheets of three columns with bytes that mean something.
    #[test]
    fn sheets_have_places_where_they_are_refused() {
        let mut state = 1u64;
        let mut below = |bound: usize| {
            state = state.wrapping_mul(6364136223846793005).wrapping_add(1442695040888963407);
            (state >> 33) as usize % bound
        };
        let mut accepted = 0;
        for _ in 0..40_000 {
            let mut sheet = vec![3, 0];
            for column in 0..below(4) as u8 {
                let map: u8 = [0, 1, 1, 2, 5, 8, 15, 17][below(8)];
                let fields = 2 * usize::from(map & 1) + 8 * (map >> 1 & 7).count_ones() as usize;
                sheet.extend([if below(4) == 0 { below(4) as u8 } else { column }, 0, map]);
                sheet.extend((0..fields).map(|at| if at == 1 { 0 } else { below(3) as u8 }));
            }
            sheet.truncate(sheet.len() - below(5).saturating_sub(3));
            for (canonical, answer) in
                [(false, Matching::from_sheet(&sheet)), (true, Matching::from_canonical_sheet(&sheet))]
            {
                let refusal = answer.as_ref().err().copied().unwrap_or(Refusal::SheetCut);
                assert_eq!(of_sheet(refusal, &sheet, canonical).place.is_some(), answer.is_err(), "{sheet:?}");
                assert_eq!(first_refusal(&sheet, canonical), answer.as_ref().err().copied(), "{sheet:?}");
                accepted += usize::from(answer.is_ok());
            }
        }
        assert!((8_000..72_000).contains(&accepted), "{accepted}");
    }
}
