//! The gap of our own match on random matrices by natural logarithms, at the largest digits that are accepted: a table
//! by size. `bench gaps [GRAPHS [SEED]]`, 1,000 graphs without a number.

use oracle::random::Random;
use suontarvi::{Gap, GeneralMatrix};

/// The least and the largest n of each line.
const CLASSES: [(usize, usize); 5] = [(10, 31), (32, 99), (100, 315), (316, 999), (1000, 4096)];

/// The most entries of a column, so that n = 4,096 has room for all.
const PER_COLUMN: usize = 64;

pub fn table(graphs: usize, seed: u64) {
    let mut random = Random::new(seed);
    println!("| n | graphs | entries | digits | median gap | largest gap | most steps a column |");
    println!("|---|---:|---|---|---:|---:|---:|");
    for (least, most) in CLASSES {
        let mut found: Vec<Found> = Vec::new();
        for at in 0..graphs / CLASSES.len() {
            // the largest n first
            let n = match at {
                0 => most,
                _ => least + random.below(most - least + 1),
            };
            found.push(one(n, &mut random));
        }
        line((least, most), found);
    }
}

/// A matrix and the gap of its match.
struct Found {
    n: usize,
    entries: usize,
    gap: Gap,
}

/// A matrix that has a complete match, with values over some range of magnitudes.
fn one(n: usize, random: &mut Random) -> Found {
    let mut perm: Vec<usize> = (0..n).collect();
    for at in (1..n).rev() {
        perm.swap(at, random.below(at + 1));
    }
    let (others, range) = (
        random.below(PER_COLUMN),
        [2, 20, 200, 1000][random.below(4)],
    );
    let (mut col_ptr, mut row_idx, mut values) = (vec![0], Vec::new(), Vec::new());
    for pair in perm {
        let mut rows: Vec<u32> = (0..others.min(n)).map(|_| random.below(n) as u32).collect();
        rows.push(pair as u32);
        rows.sort_unstable();
        rows.dedup();
        values.extend(rows.iter().map(|_| random.spread(range)));
        row_idx.extend(rows);
        col_ptr.push(row_idx.len() as u32);
    }
    let entries = row_idx.len();
    let matrix = GeneralMatrix::from_columns(n, col_ptr, row_idx, values).expect("a matrix");
    let graph = matrix.cost_graph(&matrix.logs()).expect("a graph");
    let gap = graph.best_gap(&graph.matching()).expect("a complete match");
    Found { n, entries, gap }
}

fn line((least, most): (usize, usize), mut found: Vec<Found>) {
    found.sort_by(|one, other| one.gap.bound().total_cmp(&other.gap.bound()));
    let ends = |of: fn(&Found) -> usize| {
        let numbers = found.iter().map(of);
        let (least, most) = (numbers.clone().min(), numbers.max());
        format!("{} to {}", least.unwrap_or(0), most.unwrap_or(0))
    };
    let entries = ends(|found| found.entries);
    let digits = ends(|found| found.gap.digits as usize);
    let gap = |at: usize| found.get(at).map_or(0.0, |found| found.gap.bound());
    let (median, largest) = (gap(found.len() / 2), gap(found.len().saturating_sub(1)));
    let steps = found
        .iter()
        .map(|found| found.gap.steps as f64 / found.n as f64);
    let steps = steps.fold(0.0, f64::max);
    let start = format!(
        "| {least} to {most} | {} | {entries} | {digits} |",
        found.len()
    );
    println!("{start} {median:.1e} | {largest:.1e} | {steps:.2} |");
}
