//! Times beside the original or a plain version of the same rules, on the same inputs. Each side has its own form of
//! the input (u32 and usize), made before. `bench all [MILLISECONDS [RUNS]]`, or a name of ROWS instead of `all`:
//! MILLISECONDS for each row, RUNS runs of all rows. Rows are printed on standard error as they come. At the end
//! standard output has two tables: each row of the run with the middle ratio, then each call's median and largest
//! ratio. `bench gaps [GRAPHS [SEED]]` times nothing: it prints the gaps of our own matches.

mod byte_forms;
mod check;
mod exponents;
mod factors;
mod flat;
mod gap;
mod gaps;
mod graphs;
mod growth;
mod infnorm;
mod largest;
mod logs;
mod matching;
mod programs;
mod roots;
mod rows;
mod scaling;
mod sheets;
mod sparse;
mod timing;
mod whole_graphs;

use std::process::ExitCode;
use timing::Times;

/// A module's rows; whether it could run.
type Rows = fn(&mut Times) -> bool;

const ROWS: [(&str, Rows); 19] = [
    ("sparse", sparse::run),
    ("roots", roots::run),
    ("logs", logs::run),
    ("match", matching::run),
    ("check", check::run),
    ("gap", gap::run),
    ("largest", largest::run),
    ("rows", rows::run),
    ("sheets", sheets::run),
    ("graphs", graphs::run),
    ("whole", whole_graphs::run),
    ("factors", factors::run),
    ("bytes", byte_forms::run),
    ("exponents", exponents::run),
    ("flat", flat::run),
    ("infnorm", infnorm::run),
    ("scaling", scaling::run),
    ("programs", programs::run),
    ("growth", growth::run),
];

fn main() -> ExitCode {
    let words: Vec<String> = std::env::args().skip(1).collect();
    if let [plain, name] = &words[..] {
        if plain == "plain" {
            programs::plain_program(name);
            return ExitCode::SUCCESS;
        }
    }
    let number = |at: usize, other| words.get(at).map_or(Ok(other), |word| word.parse());
    if let (Some("gaps"), Ok(graphs), Ok(seed)) = (
        words.first().map(String::as_str),
        number(1, 1000),
        number(2, 1),
    ) {
        gaps::table(graphs as usize, seed);
        return ExitCode::SUCCESS;
    }
    let chosen = chosen(words.first().map_or("", String::as_str));
    let (false, Ok(milliseconds), Ok(runs @ 1..)) =
        (chosen.is_empty(), number(1, 700), number(2, 1))
    else {
        let names = ROWS.map(|(name, _)| name).join("|");
        eprintln!("usage: bench all|{names} [MILLISECONDS [RUNS]], or bench gaps [GRAPHS [SEED]]");
        return ExitCode::from(2);
    };
    let mut complete = true;
    let mut run = |_| {
        let mut times = Times::new(milliseconds);
        chosen.iter().for_each(|rows| complete &= rows(&mut times));
        times
    };
    let runs: Vec<Times> = (0..runs).map(&mut run).collect();
    timing::row_table(&runs);
    println!();
    timing::call_table(&runs);
    match complete {
        true => ExitCode::SUCCESS,
        false => ExitCode::FAILURE,
    }
}

/// The modules of a word; how time grows has a table of its own.
fn chosen(word: &str) -> Vec<Rows> {
    let named = |&&(name, _): &&(&str, Rows)| match word {
        "all" => name != "growth",
        word => word == name,
    };
    ROWS.iter().filter(named).map(|&(_, rows)| rows).collect()
}

/// Our form of the original's indices.
fn narrow(indices: &[usize]) -> Vec<u32> {
    indices.iter().map(|&index| index as u32).collect()
}
