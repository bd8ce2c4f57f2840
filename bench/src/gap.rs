//! The gap of a match of real costs beside a plain Rust version of the same rules, and beside our match of the same
//! graph.

use crate::check::{complete, pairs_fit, Found, SIZES};
use crate::matching::LARGE;
use crate::rows::Input;
use crate::timing::Times;
use oracle::random::Random;
use suontarvi::matching;

const MAX_STEPS: f64 = (1u64 << 49) as f64;

/// Costs are below 2^36 units, and so below 40.
const UNIT: f64 = 40.0 / (1u64 << 36) as f64;

/// The largest at which 40 has not more than 2^49 steps.
const DIGITS: u32 = 43;

pub fn run(times: &mut Times) -> bool {
    let mut random = Random::new(1);
    for (n, per_column) in SIZES {
        let (input, mut found) = complete(n, per_column, UNIT, &mut random);
        let gap = proved(&input, &found);
        assert!(gap.is_ok() && gap == plain(&input, &found));
        let name = format!("n {n}, {} entries", input.row_idx.len());
        let (ours, theirs) = (|| proved(&input, &found), || plain(&input, &found));
        times.add("match_gap", &name, ours, theirs);
        let again = found.take();
        let (ours, matched) = (|| proved(&input, &again), || found.fill(&input));
        times.add("match_gap, beside our match", &name, ours, matched);
    }
    true
}

fn proved(input: &Input, found: &Found) -> Result<u64, u32> {
    let gap = matching::match_gap(
        input.n,
        DIGITS,
        &input.col_ptr,
        &input.row_idx,
        &input.cost,
        &found.perm,
        &found.u,
        &found.v,
    );
    gap.map_err(u32::from)
}

fn plain(input: &Input, found: &Found) -> Result<u64, u32> {
    let (n, count) = (input.n as usize, input.row_idx.len());
    if DIGITS > 50 {
        return Err(5);
    }
    if n > LARGE {
        return Err(1);
    }
    if count > 262_144 {
        return Err(2);
    }
    let graph = input.col_ptr.len() == n + 1 && input.cost.len() == count;
    if !graph || [found.perm.len(), found.u.len(), found.v.len()] != [n; 3] {
        return Err(3);
    }
    let fault = input.fault();
    if fault != 0 {
        return Err(fault);
    }
    let limit = MAX_STEPS / (1u64 << DIGITS) as f64;
    let fits = |x: &f64| x.abs() <= limit;
    if !input.cost.iter().all(fits) {
        return Err(8);
    }
    if !pairs_fit(input, &found.perm) {
        return Err(30);
    }
    if !found.u.iter().all(fits) || !found.v.iter().all(fits) {
        return Err(31);
    }
    Ok(steps(input, found))
}

/// Over the columns the largest excess and the pair's lack, each from 0.
fn steps(input: &Input, found: &Found) -> u64 {
    let scale = (1u64 << DIGITS) as f64;
    let up = |x: f64| (x * scale).ceil() as i64;
    let down = |x: f64| (x * scale).floor() as i64;
    let mut gap = 0;
    for (column, pair) in input.col_ptr.windows(2).enumerate() {
        let v = found.v[column];
        let (mut excess, mut lack) = (0, 0);
        for place in pair[0] as usize..pair[1] as usize {
            let (row, cost) = (input.row_idx[place], input.cost[place]);
            let u = found.u[row as usize];
            excess = excess.max(up(u) + up(v) - down(cost));
            if row == found.perm[column] {
                lack = lack.max(up(cost) - down(u) - down(v));
            }
        }
        gap += (excess + lack) as u64;
    }
    gap
}
