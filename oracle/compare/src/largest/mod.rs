//! Whether a lent matching is largest, and its marks. The original has no such call: the rules are restated here, with
//! a largest matching by augmenting paths, and where the graph is small every matching is tried.

mod inputs;
mod rules;

use crate::differs::{answer, same};
use crate::matching::graphs;
use crate::tally::Tally;
use inputs::Input;
use oracle::random::Random;
use rules::Marks;
use suontarvi::raw;

/// Every matching of up to this many columns is tried.
const TRIED: u32 = 7;

/// Runs `count` matchings, as they are or damaged, and those at the limits; whether all was alike.
pub fn run(count: u64, random: &mut Random) -> bool {
    let mut tally = Tally::new("check_largest");
    for _ in 0..count {
        let input = Input::random(random);
        one(input, random, &mut tally);
    }
    for graph in graphs::at_limits(random) {
        for _ in 0..20 {
            one(Input::of(graph.clone(), random), random, &mut tally);
        }
    }
    tally.end()
}

fn one(mut input: Input, random: &mut Random, tally: &mut Tally) {
    let changes = random.below(4);
    for _ in 0..changes {
        input.damage(random);
    }
    let outcome = rules::outcome(&input);
    let number = *outcome.as_ref().err().unwrap_or(&0);
    let compared = compare(&input, &outcome).and_then(|()| match &outcome {
        Ok(marks) => rules::holds(&input, marks),
        Err(number) if changes == 0 && input.is_ours => {
            Err(format!("a match of ours gives {number}"))
        }
        Err(_) => Ok(()),
    });
    let compared =
        compared.and_then(
            |()| match input.graph.n <= TRIED && [0, 33].contains(&number) {
                true => rules::tried(&input, number),
                false => Ok(()),
            },
        );
    tally.add(number, compared, &input);
}

/// One call: its answer and its slices.
fn compare(input: &Input, outcome: &Result<Marks, u32>) -> Result<(), String> {
    let Input { graph, perm, .. } = input;
    let (mut columns, mut rows) = (input.columns.clone(), input.rows.clone());
    let mut matched = input.matched.clone();
    let got = raw::check_largest(
        graph.n,
        &graph.col_ptr,
        &graph.rows,
        perm,
        &mut columns,
        &mut rows,
        &mut matched,
    );
    answer(&got, *outcome.as_ref().err().unwrap_or(&0))?;
    let expected = match outcome {
        Ok(marks) => (&marks.columns, &marks.rows, &vec![marks.matched]),
        Err(_) => (&input.columns, &input.rows, &input.matched),
    };
    same("columns", &columns, expected.0)?;
    same("rows", &rows, expected.1)?;
    same("matched", &matched, expected.2)
}
