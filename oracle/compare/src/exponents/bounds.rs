//! What the exponents of a complete match achieve: every such match of a whole-number graph is accepted, every scaled
//! magnitude is below 2 and every matched one above 1/4, in exact integers, subnormal values included. If the
//! application is accepted, its values are compared as well.

use super::{exponent, Sets};
use crate::differs::{answer, same};
use crate::graphs::expected::kept;
use crate::graphs::inputs::Call;
use crate::logs::normalised;
use crate::matching::native::Lent;
use crate::sparse::inputs::Matrix;
use crate::sparse::{narrow, Kind};
use crate::tally::Tally;
use oracle::random::Random;
use suontarvi::{exponents, matching};

/// The largest n.
const MOST_ROWS: usize = 30;

/// A magnitude: the exponent of its leading digit, and its digits from that one on; ordered as the numbers are.
type Size = (i64, u64);

const TWO: Size = (1, 1 << 63);
const QUARTER: Size = (-2, 1 << 63);

/// What the matrices had.
struct Met {
    partial: u64,
    entries: u64,
    pairs: u64,
    subnormal: u64,
    largest: Size,
    least_matched: Size,
}

/// Runs matrices until `count` of them have a complete match; whether all was as it should.
pub fn run(count: u64, random: &mut Random) -> bool {
    let mut tally = Tally::new("apply_exponents of complete matches");
    let mut met = Met {
        partial: 0,
        entries: 0,
        pairs: 0,
        subnormal: 0,
        largest: QUARTER,
        least_matched: TWO,
    };
    let mut done = 0;
    while done < count {
        let matrix = matrix(random);
        let Some((graph, found, cmax)) = matched(&matrix, random) else {
            tally.add(0, Err("no graph or no match".into()), &matrix);
            done += 1;
            continue;
        };
        if found.answer[0] < matrix.n.into() {
            met.partial += 1;
            continue;
        }
        done += 1;
        let (number, compared) = match made(&graph, &found, &cmax) {
            Ok(sets) => compare(&matrix, &found.perm, &sets, &mut met),
            Err(what) => (0, Err(what)),
        };
        tally.add(number, compared, &matrix);
    }
    met.print();
    tally.end()
}

/// The whole-number graph, its match and its largest logs, by our calls.
fn matched(matrix: &Matrix, random: &mut Random) -> Option<(Matrix, Lent, Vec<f64>)> {
    let mut call = Call::new(Kind::General, matrix.clone(), random);
    call.matrix.values.clone_from(&matrix.values);
    let kept = call.run_whole(Kind::General).ok()?;
    call.graph_rows.truncate(kept);
    call.cost.truncate(kept);
    let graph = Matrix {
        n: matrix.n,
        col_ptr: call.graph_ptr,
        rows: call.graph_rows,
        values: call.cost,
    };
    let mut found = Lent::new(matrix.n as usize, random);
    found.run(&graph).ok()?;
    Some((graph, found, call.cmax))
}

/// The exponents of a complete match, which passes its check and is never refused.
fn made(graph: &Matrix, found: &Lent, cmax: &[f64]) -> Result<Sets, String> {
    let (n, u, v) = (graph.n, &found.u, &found.v);
    let check = matching::check_match;
    let checked = check(
        n,
        &graph.col_ptr,
        &graph.rows,
        &graph.values,
        &found.perm,
        u,
        v,
    );
    answer(&checked, 0).map_err(|what| format!("the check {what}"))?;
    let mut sets = Sets {
        rows: vec![0; n as usize],
        columns: vec![0; n as usize],
    };
    let got = exponents::exponents(n, u, v, cmax, &mut sets.rows, &mut sets.columns);
    answer(&got, 0)?;
    let of = |x: f64| exponent(x).ok_or(format!("{x} has no exponent"));
    let of_rows: Vec<i32> = u.iter().map(|&u| of(u)).collect::<Result<_, _>>()?;
    let of_columns = v.iter().zip(cmax).map(|(v, cmax)| of(v - cmax));
    same("row_exponents", &sets.rows, &of_rows)?;
    let of_columns: Vec<i32> = of_columns.collect::<Result<_, _>>()?;
    same("column_exponents", &sets.columns, &of_columns)?;
    Ok(sets)
}

/// The bounds of every kept entry, and the application with the number expected of it.
fn compare(matrix: &Matrix, perm: &[u32], sets: &Sets, met: &mut Met) -> (u32, Result<(), String>) {
    let (number, expected) = sets.expected(matrix);
    let mut values = matrix.values.clone();
    let compared = bounds(matrix, perm, sets, met)
        .and_then(|()| answer(&sets.apply(matrix, &mut values), number))
        .and_then(|()| same("values", &values, &expected));
    (number, compared)
}

fn bounds(matrix: &Matrix, perm: &[u32], sets: &Sets, met: &mut Met) -> Result<(), String> {
    for (column, &partner) in perm.iter().enumerate() {
        for place in matrix.col_ptr[column] as usize..matrix.col_ptr[column + 1] as usize {
            let (row, value) = (matrix.rows[place], matrix.values[place]);
            if !kept(value) {
                continue;
            }
            let shift = i64::from(sets.rows[row as usize]) + i64::from(sets.columns[column]);
            let (digits, leading) = normalised(value.abs().to_bits());
            let size = (leading + shift, digits);
            met.add(size, row == partner, value.is_subnormal());
            if size >= TWO || row == partner && size <= QUARTER {
                let what = if row == partner { "matched" } else { "other" };
                return Err(format!("({row}, {column}), {what}: {:e}", number(size)));
            }
        }
    }
    Ok(())
}

/// A size with 53 digits at most, as every one of a double is, without rounding.
fn number((leading, digits): Size) -> f64 {
    digits as f64 * 2f64.powi(leading as i32 - 63)
}

impl Met {
    fn add(&mut self, size: Size, matched: bool, subnormal: bool) {
        self.entries += 1;
        self.subnormal += subnormal as u64;
        self.largest = self.largest.max(size);
        if matched {
            self.pairs += 1;
            self.least_matched = self.least_matched.min(size);
        }
    }

    fn print(&self) {
        println!(
            "nearest to 2: {:?} of {} kept entries, {} subnormal; nearest to 1/4: {:?} of {} pairs; beside them {} \
             matches not complete",
            number(self.largest),
            self.entries,
            self.subnormal,
            number(self.least_matched),
            self.pairs,
            self.partial
        );
    }
}

// ---- matrices

/// Random places, and usually those of a permutation; values of one mood or of all.
fn matrix(random: &mut Random) -> Matrix {
    let n = match random.below(4) {
        0 => 1 + random.below(MOST_ROWS),
        _ => 1 + random.below(8),
    };
    let per_mille = [50, 200, 500, 1000][random.below(4)];
    let mut places = vec![vec![false; n]; n];
    for place in places.iter_mut().flatten() {
        *place = random.chance(per_mille);
    }
    if random.chance(900) {
        let mut order: Vec<usize> = (0..n).collect();
        for column in 0..n {
            order.swap(column, column + random.below(n - column));
            places[column][order[column]] = true;
        }
    }
    let (mut col_ptr, mut rows) = (vec![0], Vec::new());
    for column in &places {
        rows.extend((0..n).filter(|&row| column[row]));
        col_ptr.push(rows.len());
    }
    let (mood, centre) = (random.below(9), random.below(2100) as i64 - 1074);
    Matrix {
        n: n as u32,
        col_ptr: narrow(&col_ptr),
        values: rows.iter().map(|_| value(mood, centre, random)).collect(),
        rows: narrow(&rows),
    }
}

/// A finite value: of any exponent, a power of two, beside one, subnormal, near 1, of a few exponents around one, a few
/// units of the logarithm beside a power of two, of any of these, or now and then a zero.
fn value(mood: usize, centre: i64, random: &mut Random) -> f64 {
    let magnitude = match mood {
        _ if random.chance(15) => 0,
        0 => random.bits() % (2047 << 52),
        1 => power(random.below(2098) as i64 - 1074),
        2 => (power(random.below(2098) as i64 - 1074) + random.below(9) as u64).saturating_sub(4),
        3 => (random.bits() >> 12) >> random.below(52),
        4 => random.spread(40).abs().to_bits(),
        5 => power(centre + random.below(9) as i64) | (random.bits() >> 12),
        6 => power(random.below(9) as i64) + random.below(9) as u64 * UNIT - 4 * UNIT,
        7 => power(random.below(600) as i64 - 300) + random.bits() % (4 * UNIT),
        _ => return value(random.below(8), centre, random),
    };
    let magnitude = magnitude.min((2047 << 52) - 1);
    f64::from_bits(magnitude | (random.bits() >> 63) << 63)
}

/// One unit of the logarithm just above a power of two, in units of the last digit: 2^52 times ln 2 / 65,536,
/// rounded up.
const UNIT: u64 = 47_632_711_550;

/// The bits of 2 ^ exponent, from the least subnormal to the largest power.
fn power(exponent: i64) -> u64 {
    match exponent.clamp(-1074, 1023) {
        small @ ..-1022 => 1 << (small + 1074),
        exponent => ((exponent + 1023) as u64) << 52,
    }
}
