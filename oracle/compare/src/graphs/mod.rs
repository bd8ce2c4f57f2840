//! Graph building of both kinds. The original tests nothing here: refusals 4 to 7 are its `validate`'s, the
//! others SPECIFICATION's. It runs on accepted matrices alone, whose logs are Rust's own `ln`. A few accepted
//! inputs have logs at the ends of the range, which no `ln` gives: their graphs are by SPECIFICATION's rules, restated.

pub mod expected;
pub mod inputs;

use crate::differs::{answer, same, zero};
use crate::range::cost_fits;
use crate::sparse::inputs::Matrix;
use crate::sparse::{Kind, ROW_LIMIT};
use crate::tally::Tally;
use expected::{expected, expected_whole, Expected};
use inputs::Call;
use oracle::random::Random;
use suontarvi::{graphs, Refusal};

/// Inputs of one call, and what the accepted ones had.
struct Run {
    kind: Kind,
    /// Whether the call makes its own logs.
    whole: bool,
    tally: Tally,
    met: Met,
}

/// Accepted matrices by what they had.
#[derive(Default)]
struct Met {
    dropped: u64,
    empty_columns: u64,
    by_rules: u64,
    larger: u64,
}

/// Runs `count` inputs of each call, those at the limits, and logs around the limits of many n; whether all was alike.
pub fn run(count: u64, random: &mut Random) -> bool {
    let mut alike = true;
    for (kind, whole, name) in [
        (Kind::Symmetric, false, "symmetric_graph"),
        (Kind::General, false, "general_graph"),
        (Kind::Symmetric, true, "whole_symmetric_graph"),
        (Kind::General, true, "whole_general_graph"),
    ] {
        let mut run = Run {
            kind,
            whole,
            tally: Tally::new(name),
            met: Met::default(),
        };
        for _ in 0..count {
            run.compare(Call::random(kind, random));
        }
        let mut limits: Vec<Matrix> = Vec::new();
        Matrix::at_limits(kind, random, |matrix| limits.push(matrix.clone()));
        // Strictly below the diagonal and mirrored, these are as many ties as the match takes.
        let mut below = Matrix::band(ROW_LIMIT, 70, kind.entry_limit(), random);
        below.rows.iter_mut().for_each(|row| *row += 1);
        limits.push(below);
        for matrix in limits {
            let mut call = Call::new(kind, matrix, random);
            run.compare(call.clone());
            call.damage(random);
            run.compare(call);
        }
        for call in Call::at_log_limits(kind, random) {
            run.compare(call);
        }
        run.met.print();
        alike &= run.tally.end();
    }
    alike
}

impl Run {
    /// One call.
    fn compare(&mut self, call: Call) {
        let before = &match self.whole {
            true => call.with_whole_logs(),
            false => call,
        };
        let expected = match self.whole {
            true => expected_whole(self.kind, before),
            false => expected(self.kind, before),
        };
        let mut after = before.clone();
        let got = after.run(self.kind, self.whole);
        let number = expected.as_ref().err().copied().unwrap_or(0);
        let compared = answer(&got, number)
            .and_then(|()| after.inputs_unchanged(before))
            .and_then(|()| match &expected {
                Ok(expected) => after.holds(expected, before, got),
                Err(_) => after.unchanged(before),
            });
        self.tally.add(number, compared, before);
        if let Ok(expected) = &expected {
            self.met.add(before, expected);
        }
    }
}

impl Call {
    fn run(&mut self, kind: Kind, whole: bool) -> Result<usize, Refusal> {
        match whole {
            true => self.run_whole(kind),
            false => self.run_lent(kind),
        }
    }

    pub fn run_whole(&mut self, kind: Kind) -> Result<usize, Refusal> {
        let call = match kind {
            Kind::Symmetric => graphs::whole_symmetric_graph,
            Kind::General => graphs::whole_general_graph,
        };
        call(
            self.matrix.n,
            &self.matrix.col_ptr,
            &self.matrix.rows,
            &self.matrix.values,
            &mut self.graph_ptr,
            &mut self.graph_rows,
            &mut self.cost,
            &mut self.cmax,
            &mut self.work,
        )
    }

    fn run_lent(&mut self, kind: Kind) -> Result<usize, Refusal> {
        let call = match kind {
            Kind::Symmetric => graphs::symmetric_graph,
            Kind::General => graphs::general_graph,
        };
        call(
            self.matrix.n,
            &self.matrix.col_ptr,
            &self.matrix.rows,
            &self.matrix.values,
            &self.logs,
            &mut self.graph_ptr,
            &mut self.graph_rows,
            &mut self.cost,
            &mut self.cmax,
            &mut self.work,
        )
    }

    pub fn inputs_unchanged(&self, before: &Call) -> Result<(), String> {
        self.matrix.unchanged(&before.matrix)?;
        same("logs", &self.logs, &before.logs)
    }

    /// After acceptance the slices hold the graph, past it what they held, and the work is zero.
    fn holds(
        &self,
        expected: &Expected,
        before: &Call,
        answered: Result<usize, Refusal>,
    ) -> Result<(), String> {
        let kept = expected.rows.len();
        if !expected
            .cost
            .iter()
            .all(|&cost| cost_fits(self.matrix.n, cost))
        {
            return Err("the match refuses this graph".into());
        }
        if answered != Ok(kept) {
            return Err(format!("kept {answered:?}, not {kept}"));
        }
        same("graph_ptr", &self.graph_ptr, &expected.pointers)?;
        same("graph_rows", &self.graph_rows[..kept], &expected.rows)?;
        same("cost", &self.cost[..kept], &expected.cost)?;
        same("cmax", &self.cmax, &expected.cmax)?;
        let (rows, cost) = (&before.graph_rows[kept..], &before.cost[kept..]);
        same("graph_rows past", &self.graph_rows[kept..], rows)?;
        same("cost past", &self.cost[kept..], cost)?;
        zero("work", &self.work)
    }

    /// After a refusal nothing has changed.
    pub fn unchanged(&self, before: &Call) -> Result<(), String> {
        same("graph_ptr", &self.graph_ptr, &before.graph_ptr)?;
        same("graph_rows", &self.graph_rows, &before.graph_rows)?;
        same("cost", &self.cost, &before.cost)?;
        same("cmax", &self.cmax, &before.cmax)?;
        same("work", &self.work, &before.work)
    }
}

impl Met {
    fn add(&mut self, call: &Call, expected: &Expected) {
        let dropped = |&value: &f64| !expected::kept(value);
        let empty = |pair: &[u32]| pair[0] == pair[1];
        self.dropped += call.matrix.values.iter().any(dropped) as u64;
        self.empty_columns += expected.pointers.windows(2).any(empty) as u64;
        self.by_rules += !expected::natural(call) as u64;
        self.larger += (call.matrix.n > 12) as u64;
    }

    fn print(&self) {
        println!(
            "accepted matrices: {} with a dropped entry, {} with an empty column, {} with n above 12, \
             {} by SPECIFICATION's rules alone",
            self.dropped, self.empty_columns, self.larger, self.by_rules
        );
    }
}
