//! What a call must answer: the refusal of SPECIFICATION 3.5, or the original's factors before `exp`.

use super::matches::Match;
use oracle::{Matched, ScalingInfo};
use suontarvi::matching::NONE;

/// What the symmetric call leaves.
pub struct LogFactors {
    pub factors: Vec<f64>,
    pub unmatched: u32,
}

/// What the unsymmetric call leaves.
pub struct SideFactors {
    pub rows: Vec<f64>,
    pub columns: Vec<f64>,
}

/// Refusals 1, 3 and 10 in this order, or the symmetric log factors.
pub fn symmetric(given: &Match, row_limit: u32, lengths_fit: bool) -> Result<LogFactors, u32> {
    sizes(given.n, row_limit, lengths_fit)?;
    let outside = |&row: &u32| row != NONE && row >= given.n;
    if given.matched > given.n || given.perm.iter().any(outside) {
        return Err(10);
    }
    let (factors, info) = original(given).symmetric_logs();
    let unmatched = match info {
        ScalingInfo::PartialSingular { n_unmatched } => n_unmatched as u32,
        ScalingInfo::Applied => 0,
        ScalingInfo::NotApplied => unreachable!("the original never says so of a match"),
    };
    Ok(LogFactors { factors, unmatched })
}

/// Refusals 1 and 3, or the log factors of rows and of columns.
pub fn unsymmetric(given: &Match, row_limit: u32, lengths_fit: bool) -> Result<SideFactors, u32> {
    sizes(given.n, row_limit, lengths_fit)?;
    let (rows, columns) = original(given).unsymmetric_logs();
    Ok(SideFactors { rows, columns })
}

fn sizes(n: u32, row_limit: u32, lengths_fit: bool) -> Result<(), u32> {
    if n > row_limit {
        return Err(1);
    }
    match lengths_fit {
        true => Ok(()),
        false => Err(3),
    }
}

fn original(given: &Match) -> Matched {
    let row = |&row: &u32| match row {
        NONE => oracle::NONE,
        row => row as usize,
    };
    Matched {
        perm: given.perm.iter().map(row).collect(),
        u: given.u.clone(),
        v: given.v.clone(),
        cmax: given.cmax.clone(),
        n_matched: given.matched as usize,
    }
}
