//! The check of a lent match. The original has none: the rules are restated here in exact integers, and the inputs are
//! the original's complete matches of whole costs, each of which must be accepted, and what becomes of them by damage.

pub mod claims;
pub mod rules;

use crate::differs::answer;
use crate::matching::expected::expected;
use crate::matching::graphs;
use crate::matching::native::LIMITS;
use crate::sparse::inputs::Matrix;
use crate::tally::Tally;
use claims::Claim;
use oracle::random::Random;
use suontarvi::matching;

/// Runs `count` matches, whole or damaged, and those at the limits; whether all was alike.
pub fn run(count: u64, random: &mut Random) -> bool {
    let mut tally = Tally::new("check_match");
    for _ in 0..count {
        let graph = claims::graph(random);
        one(graph, random, &mut tally);
    }
    for graph in graphs::at_limits(random) {
        for _ in 0..20 {
            one(graph.clone(), random, &mut tally);
        }
    }
    tally.end()
}

/// One graph: its match by the original, as it is or damaged.
fn one(mut graph: Matrix, random: &mut Random, tally: &mut Tally) {
    let found = expected(&graph, LIMITS, true).ok().map(Claim::of);
    let complete = found.as_ref().is_some_and(Claim::is_complete);
    let mut claim = found.unwrap_or_else(|| Claim::nonsense(graph.n as usize, random));
    match random.below(5) {
        0 => compare(
            &graph,
            &claim,
            complete && rules::whole_costs(&graph),
            tally,
        ),
        _ => {
            for _ in 0..1 + random.below(2) {
                claim.damage(&mut graph, random);
            }
            compare(&graph, &claim, false, tally);
        }
    }
}

/// One call, which writes nothing. A complete match of the original's must be accepted.
fn compare(graph: &Matrix, claim: &Claim, ours: bool, tally: &mut Tally) {
    let number = rules::number(graph, claim);
    let got = matching::check_match(
        graph.n,
        &graph.col_ptr,
        &graph.rows,
        &graph.values,
        &claim.perm,
        &claim.u,
        &claim.v,
    );
    let compared = answer(&got, number).and_then(|()| match ours && number != 0 {
        true => Err(format!("a complete match of the original's gives {number}")),
        false => Ok(()),
    });
    tally.add(number, compared, &(graph, claim));
}
