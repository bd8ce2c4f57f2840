//! Log factors by a rule. Rule 0 against the original before `exp`; rule 1, which the original lacks, against its rules
//! restated over each column's entries in a list of their own.

use crate::differs::{answer, same, zero};
use crate::factors::expected::{symmetric, LogFactors};
use crate::factors::matches::Match;
use crate::graphs::expected::{columns, contents};
use crate::graphs::inputs::Call;
use crate::numbers::{contents as words, doubles, other_length};
use crate::sparse::inputs::Matrix;
use crate::sparse::{Kind, ROW_LIMIT};
use crate::tally::Tally;
use oracle::random::Random;
use suontarvi::{matching::NONE, raw, Refusal};

/// The arguments of a call; of the graph's the matrix and its logs.
#[derive(Clone, Debug)]
struct Lent {
    rule: u32,
    given: Match,
    graph: Call,
    factors: Vec<f64>,
    work: Vec<u32>,
    unmatched: Vec<u32>,
}

/// Accepted calls of rule 1 by what they had.
#[derive(Default)]
struct Met {
    unmatched: u64,
    flat: u64,
    negative_zero: u64,
    equal: u64,
    held: u64,
}

/// Runs `count` inputs of each rule, some of other rules, and those at the limits; whether all was alike.
pub fn run(count: u64, random: &mut Random) -> bool {
    let mut met = Met::default();
    let mut tallies = [
        Tally::new("log_factors_by_rule 0"),
        Tally::new("log_factors_by_rule 1"),
        Tally::new("log_factors_by_rule, others"),
    ];
    for round in 0..count {
        let call = Call::random(Kind::Symmetric, random);
        compare(0, &call, &mut tallies[0], &mut met, random);
        compare(1, &call, &mut tallies[1], &mut met, random);
        if round % 50 == 0 {
            let rule = [2, 3, u32::MAX][random.below(3)];
            compare(rule, &call, &mut tallies[2], &mut met, random);
        }
    }
    let mut limits: Vec<Matrix> = Vec::new();
    Matrix::at_limits(Kind::Symmetric, random, |matrix| {
        limits.push(matrix.clone())
    });
    for matrix in limits {
        let call = Call::new(Kind::Symmetric, matrix, random);
        for rule in 0..2 {
            compare(rule, &call, &mut tallies[rule as usize], &mut met, random);
        }
    }
    met.print();
    tallies
        .iter()
        .fold(true, |alike, tally| tally.end() & alike)
}

/// One call, with damage of its own in a fifth of them.
fn compare(rule: u32, graph: &Call, tally: &mut Tally, met: &mut Met, random: &mut Random) {
    let before = Lent::new(rule, graph, random);
    let expected = before.expected();
    let mut after = before.clone();
    let got = after.run();
    let number = expected.as_ref().err().copied().unwrap_or(0);
    let compared = answer(&got, number)
        .and_then(|()| after.inputs_unchanged(&before))
        .and_then(|()| match &expected {
            Ok(left) => after.holds(left),
            Err(_) => after.unchanged(&before),
        });
    tally.add(number, compared, &before);
    if let (1, Ok(left)) = (rule, &expected) {
        met.add(&before, left);
    }
}

impl Lent {
    /// The matrix with a match of as many columns, and slices of the right lengths with any contents. In a fifth all
    /// logs, and in most of these all duals, are zeros of both signs.
    fn new(rule: u32, graph: &Call, random: &mut Random) -> Lent {
        let n = graph.matrix.col_ptr.len().saturating_sub(1);
        let mut lent = Lent {
            rule,
            given: Match::sized(n, random),
            graph: graph.clone(),
            factors: doubles(random, n),
            work: words(random, n),
            unmatched: words(random, 1),
        };
        lent.given.n = graph.matrix.n;
        if random.chance(200) {
            zeros(&mut lent.graph.logs, random);
            if random.chance(700) {
                zeros(&mut lent.given.u, random);
                zeros(&mut lent.given.v, random);
                zeros(&mut lent.given.cmax, random);
            }
        }
        if random.chance(200) {
            lent.damage(random);
        }
        lent
    }

    /// One length becomes another, or the match is damaged.
    fn damage(&mut self, random: &mut Random) {
        match random.below(6) {
            0 => other_length(random, &mut self.factors, 7.0),
            1 => other_length(random, &mut self.work, 7),
            2 => other_length(random, &mut self.unmatched, 7),
            3 => other_length(random, &mut self.graph.logs, 7.0),
            _ => {
                self.given.damage(random);
                self.graph.matrix.n = self.given.n;
            }
        }
    }

    /// The lengths of what both rules are lent.
    fn lengths_fit(&self) -> bool {
        let (n, given) = (self.given.n as usize, &self.given);
        let duals = [
            given.perm.len(),
            given.u.len(),
            given.v.len(),
            given.cmax.len(),
        ];
        duals == [n; 4] && [self.factors.len(), self.work.len(), self.unmatched.len()] == [n, n, 1]
    }

    fn expected(&self) -> Result<LogFactors, u32> {
        match self.rule {
            0 => symmetric(&self.given, ROW_LIMIT, self.lengths_fit()),
            1 => self.flat(),
            _ => Err(5),
        }
    }

    /// The refusals of symmetric graph building, then 10, or the flat factors.
    fn flat(&self) -> Result<LogFactors, u32> {
        let matrix = &self.graph.matrix;
        let fit = self.lengths_fit()
            && matrix.lengths_fit()
            && self.graph.logs.len() == matrix.rows.len();
        match Kind::Symmetric.fault(matrix, fit) {
            0 => {}
            fault => return Err(fault),
        }
        contents(Kind::Symmetric, &self.graph)?;
        let mut left = symmetric(&self.given, ROW_LIMIT, true)?;
        let matched = self.matched();
        let kept = left.factors.clone();
        for (index, column) in columns(Kind::Symmetric, &self.graph).iter().enumerate() {
            if matched[index] {
                continue;
            }
            let sums = column.iter().filter(|&&(other, _)| matched[other as usize]);
            let sums = sums.map(|&(other, log)| log + kept[other as usize]);
            let largest = sums.reduce(|best, sum| if sum > best { sum } else { best });
            left.factors[index] = largest.map_or(0.0, |sum| (-sum).clamp(-709.0, 709.0));
        }
        Ok(left)
    }

    /// Column and row are matched, and the largest log is finite.
    fn matched(&self) -> Vec<bool> {
        let given = &self.given;
        let row = |index: usize| given.perm.contains(&(index as u32));
        let index =
            |index: usize| given.perm[index] != NONE && row(index) && given.cmax[index].is_finite();
        (0..given.perm.len()).map(index).collect()
    }

    fn run(&mut self) -> Result<(), Refusal> {
        let (given, matrix) = (&self.given, &self.graph.matrix);
        raw::log_factors_by_rule(
            self.rule,
            given.n,
            given.matched,
            &given.perm,
            &given.u,
            &given.v,
            &given.cmax,
            &matrix.col_ptr,
            &matrix.rows,
            &matrix.values,
            &self.graph.logs,
            &mut self.factors,
            &mut self.work,
            &mut self.unmatched,
        )
    }

    fn inputs_unchanged(&self, before: &Lent) -> Result<(), String> {
        same("perm", &self.given.perm, &before.given.perm)?;
        same("u", &self.given.u, &before.given.u)?;
        same("v", &self.given.v, &before.given.v)?;
        same("cmax", &self.given.cmax, &before.given.cmax)?;
        self.graph.inputs_unchanged(&before.graph)
    }

    fn holds(&self, left: &LogFactors) -> Result<(), String> {
        same("factors", &self.factors, &left.factors)?;
        same("unmatched", &self.unmatched, &[left.unmatched])?;
        zero("work", &self.work)
    }

    fn unchanged(&self, before: &Lent) -> Result<(), String> {
        same("factors", &self.factors, &before.factors)?;
        same("work", &self.work, &before.work)?;
        same("unmatched", &self.unmatched, &before.unmatched)
    }
}

fn zeros(numbers: &mut [f64], random: &mut Random) {
    numbers.fill_with(|| [0.0, -0.0][random.below(2)]);
}

impl Met {
    fn add(&mut self, call: &Lent, left: &LogFactors) {
        let matched = call.matched();
        let flat = || (0..matched.len()).filter(|&index| !matched[index]);
        let factor = |index: usize| left.factors[index];
        self.unmatched += flat().next().is_some() as u64;
        self.flat += flat().any(|index| factor(index) != 0.0) as u64;
        self.negative_zero += flat().any(|index| factor(index).to_bits() == 1 << 63) as u64;
        self.held += flat().any(|index| factor(index).abs() == 709.0) as u64;
        self.equal += call.equal(&matched) as u64;
    }

    fn print(&self) {
        println!(
            "accepted calls of rule 1: {} with an unmatched index, {} with a flat factor, {} with -0.0, \
             {} with one held, \
             {} with zeros of both signs among an index's logs",
            self.unmatched, self.flat, self.negative_zero, self.held, self.equal
        );
    }
}

impl Lent {
    /// Whether a kept log of +0.0 and one of -0.0 stand in the column of an unmatched index.
    fn equal(&self, matched: &[bool]) -> bool {
        let signs = |column: &Vec<(u32, f64)>, negative: bool| {
            let zero = |&(_, log): &(u32, f64)| log == 0.0 && log.is_sign_negative() == negative;
            column.iter().any(zero)
        };
        let both = |column: &Vec<(u32, f64)>| signs(column, false) && signs(column, true);
        let all = columns(Kind::Symmetric, &self.graph);
        (0..matched.len()).any(|index| !matched[index] && both(&all[index]))
    }
}
