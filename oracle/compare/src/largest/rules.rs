//! The rules in their order; a largest matching by augmenting paths; the marks by a search; what they show.

use super::inputs::Input;
use crate::check::rules::columns;
use crate::matching::expected::shape;
use crate::matching::native::LIMITS;
use crate::sparse::inputs::Matrix;
use suontarvi::matching::NONE;

/// What an accepted call writes.
pub struct Marks {
    pub columns: Vec<u32>,
    pub rows: Vec<u32>,
    pub matched: u32,
}

/// The refusal of a pattern, or 0.
pub fn pattern(graph: &Matrix, others_fit: bool) -> u32 {
    let lengths_fit = others_fit && graph.col_ptr.len() == graph.n as usize + 1;
    shape(graph, LIMITS, lengths_fit).err().unwrap_or(0)
}

/// The marks, or the first refusal.
pub fn outcome(input: &Input) -> Result<Marks, u32> {
    let Input { graph, perm, .. } = input;
    let n = graph.n as usize;
    let lengths = [perm.len(), input.columns.len(), input.rows.len()];
    let number = pattern(graph, lengths == [n; 3] && input.matched.len() == 1);
    if number != 0 {
        return Err(number);
    }
    if !is_matching(graph, perm) {
        return Err(30);
    }
    if pairs(perm) < pairs(&largest(graph)) {
        return Err(33);
    }
    Ok(marks(graph, perm))
}

fn pairs(perm: &[u32]) -> u32 {
    perm.iter().filter(|&&row| row != NONE).count() as u32
}

/// No repeat, no pair without an entry.
fn is_matching(graph: &Matrix, perm: &[u32]) -> bool {
    let mut rows: Vec<u32> = perm.iter().copied().filter(|&row| row != NONE).collect();
    rows.sort_unstable();
    let entry = |(entries, &row): (Vec<(u32, usize)>, &u32)| {
        row == NONE || entries.iter().any(|&(other, _)| other == row)
    };
    rows.windows(2).all(|pair| pair[0] != pair[1]) && columns(graph).zip(perm).all(entry)
}

/// A search for augmenting paths.
struct Search {
    entries: Vec<Vec<(u32, usize)>>,
    column_of: Vec<Option<usize>>,
    seen: Vec<bool>,
}

impl Search {
    /// Whether the column gets a row, from other columns if it must.
    fn place(&mut self, column: usize) -> bool {
        for at in 0..self.entries[column].len() {
            let row = self.entries[column][at].0 as usize;
            if !std::mem::replace(&mut self.seen[row], true) {
                let free = match self.column_of[row] {
                    None => true,
                    Some(other) => self.place(other),
                };
                if free {
                    self.column_of[row] = Some(column);
                    return true;
                }
            }
        }
        false
    }
}

/// A matching of most pairs: rounds of paths from each free column until one finds none.
pub fn largest(graph: &Matrix) -> Vec<u32> {
    let n = graph.n as usize;
    let entries: Vec<Vec<(u32, usize)>> = columns(graph).collect();
    let mut search = Search {
        entries,
        column_of: vec![None; n],
        seen: vec![false; n],
    };
    let mut free: Vec<usize> = (0..n).rev().collect();
    loop {
        search.seen.fill(false);
        let before = free.len();
        free.retain(|&column| !search.place(column));
        if free.len() == before {
            break;
        }
    }
    let mut perm = vec![NONE; n];
    for (row, column) in search.column_of.iter().enumerate() {
        if let Some(column) = column {
            perm[*column] = row as u32;
        }
    }
    perm
}

/// What alternating paths reach from the columns without a row.
fn marks(graph: &Matrix, perm: &[u32]) -> Marks {
    let n = graph.n as usize;
    let entries: Vec<Vec<(u32, usize)>> = columns(graph).collect();
    let (mut marked, mut rows) = (vec![0; n], vec![0; n]);
    let mut waiting: Vec<usize> = (0..n).filter(|&column| perm[column] == NONE).collect();
    while let Some(column) = waiting.pop() {
        marked[column] = 1;
        for &(row, _) in &entries[column] {
            if std::mem::replace(&mut rows[row as usize], 1) == 0 {
                waiting.extend(perm.iter().position(|&other| other == row));
            }
        }
    }
    Marks {
        columns: marked,
        rows,
        matched: pairs(perm),
    }
}

/// What the marks show (Hall): marked columns have entries in marked rows alone, each of which is paired with one of
/// them, and there are as many more of them as have no row.
pub fn holds(input: &Input, marks: &Marks) -> Result<(), String> {
    let Input { graph, perm, .. } = input;
    for (column, entries) in columns(graph).enumerate() {
        let marked = marks.columns[column] == 1;
        if marked
            && entries
                .iter()
                .any(|&(row, _)| marks.rows[row as usize] == 0)
        {
            return Err(format!("column {column} has an entry in no marked row"));
        }
    }
    for row in (0..graph.n).filter(|&row| marks.rows[row as usize] == 1) {
        let column = perm.iter().position(|&other| other == row);
        if column.is_none_or(|column| marks.columns[column] == 0) {
            return Err(format!("row {row} is paired with no marked column"));
        }
    }
    let others = self::marks(graph, &largest(graph));
    if others.columns != marks.columns || others.rows != marks.rows {
        return Err("another largest matching has other marks".into());
    }
    let count = |marks: &[u32]| marks.iter().sum::<u32>();
    match count(&marks.columns) == count(&marks.rows) + graph.n - marks.matched {
        true => Ok(()),
        false => Err("the marked columns are not as many more".into()),
    }
}

/// Whether the pairs are as many as any matching has, each of which is tried, exactly if the call says so.
pub fn tried(input: &Input, number: u32) -> Result<(), String> {
    let entries: Vec<Vec<(u32, usize)>> = columns(&input.graph).collect();
    let (most, pairs) = (most(&entries, 0), pairs(&input.perm));
    match (most == pairs) == (number == 0) && most >= pairs {
        true => Ok(()),
        false => Err(format!("{pairs} pairs of {most} give {number}")),
    }
}

/// The most pairs of these columns with rows that are not yet taken.
fn most(columns: &[Vec<(u32, usize)>], taken: u64) -> u32 {
    let Some((first, rest)) = columns.split_first() else {
        return 0;
    };
    let free = first.iter().filter(|(row, _)| taken >> row & 1 == 0);
    let with = free.map(|(row, _)| 1 + most(rest, taken | 1 << row));
    with.chain([most(rest, taken)]).max().unwrap_or(0)
}
