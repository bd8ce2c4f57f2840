//! The list that the program `evidence_replay` reads: for each call inputs as the other commands draw them, chosen so
//! that every refusal comes and most are accepted, and inputs at the limits, each with the answer that those commands
//! expect.

mod calls;
mod case;
mod limits;
mod samples;

use crate::factors::matches::Match;
use crate::factors::native::{Symmetric, Unsymmetric};
use crate::graphs::inputs::Call as Building;
use crate::infnorm::{Call as Norm, Rule};
use crate::matching::expected::NUMBERS;
use crate::matching::graphs;
use crate::matching::native::Lent;
use crate::numbers::{doubles, other_length};
use crate::scaling::inputs::{Call as Choice, CHOICES};
use crate::sparse::inputs::{Matrix, Triplets};
use crate::sparse::Kind;
use case::Case;
use oracle::random::Random;
use std::collections::BTreeMap;

const HEAD: &str = "\
# Answers of the original, and the refusals of SPECIFICATION 3.5, written by `compare list` (oracle/README.md).
# A case: the call's number and its numbers; the lengths of its slices, then what each slice holds; the answer; what
# each slice that is lent mutably holds then. The slices of call 13 come in three groups, 7, 5 and 6, each with its
# lengths first; after the answer the last group comes first. Words are hexadecimal, doubles by their bits; C*W is C
# words W, C*W+S adds S to each next one. 0 ends the list.
";

/// Inputs that are drawn for a call, and what a case may have.
const DRAWN: usize = 20_000;
const MOST_PLACES: usize = 600;
const MOST_BYTES: usize = 1000;

/// The chooser is lent more slices than any other call.
const MOST_BYTES_OF_CHOICE: usize = 2400;

/// Accepted cases of each kind, and refused ones of each number.
const ACCEPTED: usize = 8;
const REFUSED: usize = 3;

/// Writes the list to standard output.
pub fn run(random: &mut Random) -> bool {
    print!("{HEAD}");
    for cases in [
        sparse(random),
        roots(random),
        matches(random),
        built(random),
        factors(random),
        norms(random),
        choices(random),
        limits::cases(random),
    ] {
        for case in cases {
            print!("{}", case.text());
        }
    }
    println!("0");
    true
}

/// Draws, and keeps what is short, up to a number of each answer.
fn choose(random: &mut Random, mut draw: impl FnMut(&mut Random) -> Option<Case>) -> Vec<Case> {
    let mut met: BTreeMap<(Option<u64>, u64, bool), usize> = BTreeMap::new();
    let mut chosen = Vec::new();
    for _ in 0..DRAWN {
        let Some(case) = draw(random) else { continue };
        let most_bytes = match case.choice() {
            Some(_) => MOST_BYTES_OF_CHOICE,
            None => MOST_BYTES,
        };
        if case.longest() > MOST_PLACES || case.text().len() > most_bytes {
            continue;
        }
        let most = if case.answer[0] == 0 {
            ACCEPTED
        } else {
            REFUSED
        };
        let met = met.entry(case.kind()).or_default();
        if *met < most {
            *met += 1;
            chosen.push(case);
        }
    }
    chosen
}

impl Case {
    /// Refused with which number, or accepted, inputs without entries apart; of the chooser with which choice.
    fn kind(&self) -> (Option<u64>, u64, bool) {
        (self.choice(), self.answer[0], self.longest() < 3)
    }
}

fn sparse(random: &mut Random) -> Vec<Case> {
    let mut cases = Vec::new();
    for kind in [Kind::Symmetric, Kind::General] {
        let validate =
            |random: &mut Random| Some(calls::validate(kind, &Matrix::random(kind, random)));
        cases.extend(choose(random, validate));
        let triplets =
            |random: &mut Random| Some(calls::triplets(kind, &Triplets::random(kind, random)));
        cases.extend(choose(random, triplets));
    }
    cases
}

/// The ends of the doubles, squares and their neighbours, powers of two, and any doubles.
fn roots(random: &mut Random) -> Vec<Case> {
    let mut numbers = vec![
        2.0,
        4.0,
        0.0,
        -0.0,
        5e-324,
        -5e-324,
        -1.0,
        f64::MIN_POSITIVE,
        f64::MAX,
        f64::MIN,
        f64::INFINITY,
        f64::NEG_INFINITY,
        f64::NAN,
        f64::from_bits(0x000F_FFFF_FFFF_FFFF),
    ];
    for _ in 0..10 {
        let root = random.below(1 << 26) as f64;
        let square = (root * root).to_bits();
        numbers.extend([square - 1, square, square + 1].map(f64::from_bits));
    }
    for _ in 0..10 {
        numbers.push(random.spread(1074).abs());
        numbers.push(2f64.powi(random.below(2000) as i32 - 1000));
        numbers.push(f64::from_bits(random.bits() >> (1 + random.below(60))));
    }
    numbers.extend(doubles(random, 10));
    numbers.into_iter().map(calls::sqrt).collect()
}

/// The samples, complete and partial matches, and damaged graphs.
fn matches(random: &mut Random) -> Vec<Case> {
    let mut cases: Vec<Case> = samples::graphs()
        .iter()
        .map(|graph| calls::matching(graph, &Lent::new(graph.n as usize, random)))
        .collect();
    for complete in [true, false] {
        let whole = |random: &mut Random| {
            let graph = graphs::random(random);
            let case = calls::matching(&graph, &Lent::new(graph.n as usize, random));
            let searched = case.answer[3] > 0;
            let wanted = (case.answer[1] == graph.n.into()) == complete && searched;
            wanted.then_some(case)
        };
        cases.extend(choose(random, whole));
    }
    let damaged = |random: &mut Random| {
        let mut graph = graphs::random(random);
        let mut lent = Lent::new(graph.n as usize, random);
        match random.chance(300) {
            true => lent.damage(random),
            false => graphs::damage(&mut graph, random),
        }
        (lent.answer.len() == NUMBERS).then(|| calls::matching(&graph, &lent))
    };
    cases.extend(choose(random, damaged));
    cases
}

fn built(random: &mut Random) -> Vec<Case> {
    let mut cases = Vec::new();
    for kind in [Kind::Symmetric, Kind::General] {
        let graph = |random: &mut Random| Some(calls::graph(kind, &Building::random(kind, random)));
        cases.extend(choose(random, graph));
    }
    cases
}

fn factors(random: &mut Random) -> Vec<Case> {
    let symmetric = |random: &mut Random| {
        let mut call = Symmetric::new(&Match::random(random), random);
        match random.below(20) {
            0 => other_length(random, &mut call.factors, 7.0),
            1 => other_length(random, &mut call.work, 7),
            _ => {}
        }
        Some(calls::log_factors(&call))
    };
    let mut cases = choose(random, symmetric);
    let unsymmetric = |random: &mut Random| {
        let mut call = Unsymmetric::new(&Match::random(random), random);
        match random.below(20) {
            0 => other_length(random, &mut call.rows, 7.0),
            1 => other_length(random, &mut call.columns, 7.0),
            _ => {}
        }
        Some(calls::unsymmetric_factors(&call))
    };
    cases.extend(choose(random, unsymmetric));
    cases
}

fn norms(random: &mut Random) -> Vec<Case> {
    let mut cases = Vec::new();
    for rule in [Rule::Iterated, Rule::OnePass] {
        let norm = |random: &mut Random| Some(calls::infnorm(rule, &Norm::random(random)));
        cases.extend(choose(random, norm));
    }
    cases
}

/// Each choice; unknown numbers belong to the C interface.
fn choices(random: &mut Random) -> Vec<Case> {
    let choice = |random: &mut Random| {
        let call = Choice::random(random);
        let whole = (call.choice as usize) < CHOICES.len() && call.info.len() == 2;
        whole.then(|| calls::scaling(&call))
    };
    choose(random, choice)
}
