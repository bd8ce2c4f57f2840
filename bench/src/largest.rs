//! Whether a matching is largest beside a plain Rust version of the same rules, of our own matches, complete and not;
//! and beside our match of the same graph.

use crate::check::{complete, Found, SIZES};
use crate::matching::{spread, LARGE};
use crate::rows::Input;
use crate::timing::Times;
use oracle::random::Random;
use suontarvi::matching::{self, NONE};

pub fn run(times: &mut Times) -> bool {
    let mut random = Random::new(1);
    for (n, per_column) in SIZES {
        let (input, found) = complete(n, per_column, 1.0, &mut random);
        add(times, "check_largest", &input, found);
        let (input, found) = crowded(n, per_column, &mut random);
        add(times, "check_largest, not complete", &input, found);
    }
    true
}

fn add(times: &mut Times, call: &str, input: &Input, mut found: Found) {
    let n = input.n as usize;
    let (mut ours, mut theirs) = (Marks::new(n), Marks::new(n));
    assert_eq!(ours.proved(input, &found.perm), 0);
    assert_eq!(theirs.plain(input, &found.perm), 0);
    assert!(ours == theirs);
    let pairs = ours.matched[0];
    let name = format!("n {n}, {} entries, {pairs} pairs", input.row_idx.len());
    let perm = &found.perm.clone();
    let (proved, plain) = (|| ours.proved(input, perm), || theirs.plain(input, perm));
    times.add(call, &name, proved, plain);
    let (ours, matched) = (|| ours.proved(input, perm), || found.fill(input));
    times.add(&format!("{call}, beside our match"), &name, ours, matched);
}

/// Every other column has its rows among the first quarter, so that some stay free.
fn crowded(n: usize, per_column: usize, random: &mut Random) -> (Input, Found) {
    let mut columns = spread(n, per_column, 1 << 36, random);
    for column in columns.iter_mut().step_by(2) {
        column.iter_mut().for_each(|(row, _)| *row %= n / 4);
        column.sort_unstable_by_key(|&(row, _)| row);
        column.dedup_by_key(|&mut (row, _)| row);
    }
    let (input, mut found) = (Input::new(&columns), Found::new(n));
    assert!(found.fill(&input) < n as u64);
    (input, found)
}

/// What both sides are lent.
#[derive(PartialEq)]
struct Marks {
    columns: Vec<u32>,
    rows: Vec<u32>,
    matched: Vec<u32>,
}

impl Marks {
    fn new(n: usize) -> Marks {
        Marks {
            columns: vec![0; n],
            rows: vec![0; n],
            matched: vec![0],
        }
    }

    fn proved(&mut self, input: &Input, perm: &[u32]) -> u32 {
        let (col_ptr, row_idx) = (&input.col_ptr, &input.row_idx);
        let (columns, rows) = (&mut self.columns, &mut self.rows);
        match matching::check_largest(input.n, col_ptr, row_idx, perm, columns, rows) {
            Ok(matched) => {
                self.matched[0] = matched;
                0
            }
            Err(refusal) => refusal.into(),
        }
    }

    fn plain(&mut self, input: &Input, perm: &[u32]) -> u32 {
        let n = input.n as usize;
        if n > LARGE {
            return 1;
        }
        if input.row_idx.len() > 262_144 {
            return 2;
        }
        let lent = [self.columns.len(), self.rows.len(), perm.len()] == [n; 3];
        if input.col_ptr.len() != n + 1 || !lent || self.matched.len() != 1 {
            return 3;
        }
        let fault = input.pattern_fault();
        if fault != 0 {
            return fault;
        }
        let Some(column_of) = inverse(input, perm) else {
            return 30;
        };
        self.search(input, perm, &column_of)
    }

    /// From the columns without a row; 33 if a free row is met, and then nothing is written.
    fn search(&mut self, input: &Input, perm: &[u32], column_of: &[u32]) -> u32 {
        let n = perm.len();
        let mut rows = vec![false; n];
        let mut queue: Vec<u32> = (0..input.n).filter(|&j| perm[j as usize] == NONE).collect();
        let free = queue.len();
        let mut head = 0;
        while let Some(&column) = queue.get(head) {
            let column = column as usize;
            let places = input.col_ptr[column] as usize..input.col_ptr[column + 1] as usize;
            for &row in &input.row_idx[places] {
                if !rows[row as usize] {
                    rows[row as usize] = true;
                    match column_of[row as usize] {
                        NONE => return 33,
                        other => queue.push(other),
                    }
                }
            }
            head += 1;
        }
        self.columns.fill(0);
        queue
            .iter()
            .for_each(|&column| self.columns[column as usize] = 1);
        let marks = self.rows.iter_mut().zip(rows);
        marks.for_each(|(mark, met)| *mark = met.into());
        self.matched[0] = (n - free) as u32;
        0
    }
}

/// The column of each row; none if the pairs are no matching.
fn inverse(input: &Input, perm: &[u32]) -> Option<Vec<u32>> {
    let mut column_of = vec![NONE; perm.len()];
    for (column, (pair, &row)) in input.col_ptr.windows(2).zip(perm).enumerate() {
        if row == NONE {
            continue;
        }
        let entries = &input.row_idx[pair[0] as usize..pair[1] as usize];
        let of = column_of.get_mut(row as usize)?;
        if *of != NONE || !entries.contains(&row) {
            return None;
        }
        *of = column as u32;
    }
    Some(column_of)
}
