//! The gap of a lent match. The original has none: its rules are restated here in exact integers. Where the graph is
//! small, every complete matching is tried, and none may cost less than the pairs by more than the gap.

mod inputs;
mod rules;
mod units;

use crate::check::rules as check_rules;
use crate::differs::{answer, same};
use crate::matching::graphs;
use crate::tally::Tally;
use inputs::{Input, TRIED};
use oracle::random::Random;
use suontarvi::raw;
use units::Units;

/// Runs `count` matches, as they are or damaged, and those at the limits; whether all was alike.
pub fn run(count: u64, random: &mut Random) -> bool {
    let mut tally = Tally::new("match_gap");
    for _ in 0..count {
        let input = Input::random(random);
        one(input, random, &mut tally);
    }
    for graph in graphs::at_limits(random) {
        let input = Input::of(graph, random);
        for _ in 0..20 {
            one(input.clone(), random, &mut tally);
        }
    }
    tally.end()
}

fn one(mut input: Input, random: &mut Random, tally: &mut Tally) {
    for _ in 0..random.below(4) {
        input.damage(random);
    }
    let outcome = rules::outcome(&input);
    let compared = compare(&input, outcome).and_then(|()| match outcome {
        Ok(gap) => holds(&input, gap),
        Err(_) => Ok(()),
    });
    tally.add(outcome.err().unwrap_or(0), compared, &input);
}

/// One call: its answer and its slice.
fn compare(input: &Input, outcome: Result<u64, u32>) -> Result<(), String> {
    let Input { graph, claim, .. } = input;
    let mut gap = input.gap.clone();
    let got = raw::match_gap(
        graph.n,
        input.digits,
        &graph.col_ptr,
        &graph.rows,
        &graph.values,
        &claim.perm,
        &claim.u,
        &claim.v,
        &mut gap,
    );
    answer(&got, outcome.err().unwrap_or(0))?;
    match outcome {
        Ok(steps) => same("gap", &gap, &[steps]),
        Err(_) => same("gap", &gap, &input.gap),
    }
}

/// What an accepted call says: the bound, if every matching can be tried, and no gap for what the check accepts.
fn holds(input: &Input, gap: u64) -> Result<(), String> {
    let Input { graph, claim, .. } = input;
    if gap != 0 && check_rules::number(graph, claim) == 0 {
        return Err(format!("the check accepts what has the gap {gap}"));
    }
    if graph.n > TRIED {
        return Ok(());
    }
    let total = rules::total(graph, &claim.perm);
    let least = rules::least(graph).ok_or("the pairs are complete and none was found")?;
    match total.at_most(&least.plus(Units::steps(gap, input.digits))) {
        true => Ok(()),
        false => Err(format!(
            "{total:?} is further than {gap} steps from {least:?}"
        )),
    }
}
