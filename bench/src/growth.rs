//! How the time of the match grows: with n, with the ties, with the searches. A row has the counts that come back.

use crate::matching::{crowded, spread, Both, Columns, LARGE};
use crate::timing::Times;
use oracle::random::Random;

const BOUND: u64 = 1 << 36;

/// As many graphs as a row times in turn, so that the processor does not learn the branches of one.
const IN_TURN: usize = 8;

pub fn run(times: &mut Times) -> bool {
    let mut random = Random::new(1);
    for n in [256, 512, 1024, 2048, LARGE] {
        add(times, "n", &[spread(n, 8, BOUND, &mut random)]);
    }
    for per_column in [4, 8, 16, 32, 64] {
        add(times, "ties", &[spread(LARGE, per_column, BOUND, &mut random)]);
    }
    for per_column in [3, 15, 63] {
        let graphs: Vec<Columns> = (0..IN_TURN)
            .map(|_| with_diagonal(per_column, &mut random))
            .collect();
        add(times, "ties without a search", &graphs[..1]);
        add(times, "ties without a search, eight graphs in turn", &graphs);
    }
    for rows in [16, 32, 64, 128, 256] {
        add(times, "failing searches", &[crowded(rows, BOUND, &mut random)]);
    }
    true
}

/// Random columns with a tie of cost 0 on the diagonal: phases 1 and 2 match every column.
fn with_diagonal(per_column: usize, random: &mut Random) -> Columns {
    let mut columns = spread(LARGE, per_column, BOUND, random);
    for (row, column) in columns.iter_mut().enumerate() {
        column.retain(|&(other, _)| other != row);
        column.push((row, 0.0));
        column.sort_unstable_by_key(|&(row, _)| row);
    }
    columns
}

/// A row of graphs of one kind, with the counts of the first.
fn add(times: &mut Times, grows: &str, graphs: &[Columns]) {
    let mut both: Vec<Both> = graphs.iter().map(Both::new).collect();
    let originals: Vec<_> = both.iter().map(|both| both.original.clone()).collect();
    let counts: Vec<_> = both.iter_mut().map(Both::alike).collect();
    let [_, slots, searches, _, _, scanned, ..] = counts[0];
    let (n, ties) = (graphs[0].len(), originals[0].cost().len());
    let input = format!(
        "n {n}, {ties} ties, {searches} searches, {scanned} ties scanned, {slots} heap slots set"
    );
    let call = format!("match, growing {grows}");
    let (mut at, mut at_original) = (0, 0);
    let ours = || {
        at = (at + 1) % both.len();
        both[at].ours()
    };
    let original = || {
        at_original = (at_original + 1) % originals.len();
        originals[at_original].run()
    };
    times.add(&call, &input, ours, original);
}
