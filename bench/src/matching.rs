//! The match. Ours tests its graph first, the original does not. Ours is lent its work, which it leaves zero, so that a
//! caller can lend it again; the original allocates its own.

use crate::narrow;
use crate::timing::Times;
use oracle::random::Random;
use oracle::Graph;
use std::rc::Rc;
use suontarvi::raw;

pub const LARGE: usize = 4096;

/// Whole costs below these.
pub const COSTS: [(&str, u64); 2] = [("costs below 16", 16), ("costs below 2^36", 1 << 36)];

/// For each column its ties: row and cost.
pub type Columns = Vec<Vec<(usize, f64)>>;

pub fn run(times: &mut Times) -> bool {
    let mut random = Random::new(1);
    for (text, bound) in COSTS {
        let mut add = |name: &str, columns: Columns| {
            let mut both = Both::new(&columns);
            let original = both.original.clone();
            both.alike();
            let input = format!("{name}, {text}");
            times.add("match", &input, || both.ours(), || original.run());
        };
        add("n 16, 64 ties, random", spread(16, 4, bound, &mut random));
        for (name, n, per_column) in [
            ("n 256, 2048 ties, random", 256, 8),
            ("n 4096, 16384 ties, random", LARGE, 4),
            ("n 4096, 262144 ties, random", LARGE, 64),
        ] {
            add(name, spread(n, per_column, bound, &mut random));
        }
        add("n 4096, band of 5", band(2, bound, &mut random));
        add("n 4096, band of 63", band(31, bound, &mut random));
        for rows in [16, 128] {
            let name = format!("n 4096, 3 of 4 columns on {rows} rows: failing searches");
            add(&name, crowded(rows, bound, &mut random));
        }
        for (falling, order) in [(true, "falling"), (false, "random")] {
            let name = format!("n 4096, heap filled by 32 long columns, {order}");
            add(&name, long_columns(falling, bound, &mut random));
        }
    }
    true
}

/// A graph in both forms, and what our call is lent.
pub struct Both {
    pub original: Rc<Graph>,
    col_ptr: Vec<u32>,
    row_idx: Vec<u32>,
    perm: Vec<u32>,
    u: Vec<f64>,
    v: Vec<f64>,
    work: Vec<u32>,
    fwork: Vec<f64>,
}

impl Both {
    pub fn new(columns: &Columns) -> Both {
        let n = columns.len();
        let mut pointers = vec![0];
        for column in columns {
            pointers.push(pointers[pointers.len() - 1] + column.len());
        }
        let ties = columns.concat();
        let rows: Vec<usize> = ties.iter().map(|&(row, _)| row).collect();
        let cost = ties.iter().map(|&(_, cost)| cost).collect();
        Both {
            col_ptr: narrow(&pointers),
            row_idx: narrow(&rows),
            original: Rc::new(Graph::new(n, pointers, rows, cost)),
            perm: vec![0; n],
            u: vec![0.0; n],
            v: vec![0.0; n],
            work: vec![0; 12 * n + 1],
            fwork: vec![0.0; 2 * n],
        }
    }

    /// Our call: the matched count and the seven counts.
    pub fn ours(&mut self) -> [u64; 8] {
        let mut answer = [0; 8];
        raw::hungarian_match(
            self.perm.len() as u32,
            &self.col_ptr,
            &self.row_idx,
            self.original.cost(),
            &mut self.perm,
            &mut self.u,
            &mut self.v,
            &mut self.work,
            &mut self.fwork,
            &mut answer,
        )
        .expect("the graph is taken");
        answer
    }

    /// Our counts, of which five are the original's: the same work is timed.
    pub fn alike(&mut self) -> [u64; 8] {
        let answer = self.ours();
        assert_eq!(answer[1..6], self.original.run().counts);
        answer
    }
}

fn cost(bound: u64, random: &mut Random) -> f64 {
    (random.bits() % bound) as f64
}

/// Columns of as many random rows; n is a power of two, so that an odd step meets each row once.
pub fn spread(n: usize, per_column: usize, bound: u64, random: &mut Random) -> Columns {
    let column = |random: &mut Random| {
        let (first, step) = (random.below(n), 2 * random.below(n / 2) + 1);
        let mut rows: Vec<usize> = (0..per_column).map(|k| (first + k * step) % n).collect();
        rows.sort_unstable();
        rows.into_iter()
            .map(|row| (row, cost(bound, random)))
            .collect()
    };
    (0..n).map(|_| column(random)).collect()
}

/// Each column has the rows up to `reach` from the diagonal.
fn band(reach: usize, bound: u64, random: &mut Random) -> Columns {
    let rows = |column: usize| column.saturating_sub(reach)..(column + reach + 1).min(LARGE);
    let columns = 0..LARGE;
    columns
        .map(|column| rows(column).map(|row| (row, cost(bound, random))).collect())
        .collect()
}

/// Three of four columns have eight ties among the first rows and most of them stay free; the last
/// quarter has its own rows.
pub fn crowded(rows: usize, bound: u64, random: &mut Random) -> Columns {
    let mut columns = spread(rows, 8, bound, random);
    while columns.len() < LARGE * 3 / 4 {
        columns.extend(spread(rows, 8, bound, random));
    }
    columns.truncate(LARGE * 3 / 4);
    columns.extend((LARGE * 3 / 4..LARGE).map(|row| vec![(row, cost(bound, random))]));
    columns
}

/// Short columns hold the diagonal and one dear tie to the last rows; the last columns have a tie to every
/// other row. Their searches put all those rows into the heap and take most of them out again.
fn long_columns(falling: bool, bound: u64, random: &mut Random) -> Columns {
    let short = LARGE - 32;
    let mut columns: Columns = Vec::new();
    for column in 0..short {
        columns.push(vec![
            (column, 0.0),
            (short + column % 32, cost(bound, random)),
        ]);
    }
    for _ in 0..32 {
        let tie = |row: usize| match falling {
            true => (
                row,
                ((short - row) as u64 * bound / LARGE as u64 / 4) as f64,
            ),
            false => (row, cost(bound / 4, random)),
        };
        columns.push((0..short).map(tie).collect());
    }
    columns
}
