//! The proved library and programs against the original, on random and damaged inputs: the answer of every call,
//! every bit of every lent slice, every byte printed. Ends with a line for each call; status 1 if anything differs.
//! `compare sparse|match|check|gap|largest|rows|sheets|ties|pairs|graphs|factors|exponents|flat|
//! infnorm|scaling|logs|symmetric [COUNT] [SEED]`; `compare list` writes the list that the program `evidence_replay`
//! reads. What the original lacks is compared with its rules, restated here.

mod check;
mod differs;
mod exponents;
mod factors;
mod flat;
mod gap;
mod graphs;
mod infnorm;
mod largest;
mod le_bytes;
mod list;
mod logs;
mod matching;
mod numbers;
mod programs;
mod range;
mod rows;
mod scaling;
mod sheets;
mod sparse;
mod symmetric;
mod tally;

use oracle::random::Random;
use std::process::ExitCode;

fn main() -> ExitCode {
    let words: Vec<String> = std::env::args().skip(1).collect();
    match run(&words) {
        Some(true) => ExitCode::SUCCESS,
        Some(false) => ExitCode::FAILURE,
        None => {
            eprintln!(
                "usage: compare sparse|match|check|gap|largest|rows|sheets|ties|pairs|graphs|factors|exponents|flat|\
                 infnorm|scaling|logs|symmetric \
                 [COUNT] [SEED], or compare list"
            );
            ExitCode::from(2)
        }
    }
}

/// Whether all was alike; none if the words are no command.
fn run(words: &[String]) -> Option<bool> {
    let number = |at: usize, default: u64| match words.get(at) {
        Some(word) => word.parse().ok(),
        None => Some(default),
    };
    let mut random = Random::new(number(2, 1)?);
    match words.first()?.as_str() {
        "sparse" => Some(sparse::run(number(1, 200_000)?, &mut random)),
        "match" => Some(matching::run(number(1, 1_000_000)?, &mut random)),
        "check" => Some(check::run(number(1, 200_000)?, &mut random)),
        "gap" => Some(gap::run(number(1, 200_000)?, &mut random)),
        "largest" => Some(largest::run(number(1, 200_000)?, &mut random)),
        "rows" => Some(rows::run(number(1, 200_000)?, &mut random)),
        "sheets" => Some(sheets::run(number(1, 200_000)?, &mut random)),
        "ties" => Some(programs::ties(number(1, 100_000)?, &mut random)),
        "pairs" => Some(programs::pairs(number(1, 100_000)?, &mut random)),
        "graphs" => Some(graphs::run(number(1, 200_000)?, &mut random)),
        "factors" => Some(factors::run(number(1, 200_000)?, &mut random)),
        "exponents" => Some(exponents::run(number(1, 200_000)?, &mut random)),
        "flat" => Some(flat::run(number(1, 200_000)?, &mut random)),
        "infnorm" => Some(infnorm::run(number(1, 200_000)?, &mut random)),
        "scaling" => Some(scaling::run(number(1, 200_000)?, &mut random)),
        "logs" => Some(logs::run(number(1, 200_000)?, &mut random)),
        "symmetric" => Some(symmetric::run(number(1, 200_000)?, &mut random)),
        "list" => Some(list::run(&mut random)),
        _ => None,
    }
}
