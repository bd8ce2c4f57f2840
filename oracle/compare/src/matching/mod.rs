//! The match through both interfaces. The original does not test its graph: refusals are expected by
//! SPECIFICATION's rules, restated in `expected`, and the original runs on accepted graphs alone.

mod bytes;
pub mod expected;
pub mod graphs;
pub mod native;
pub mod plain;

use crate::sparse::inputs::Matrix;
use crate::tally::Tally;
use expected::Expected;
use oracle::random::Random;

/// Inputs of both calls, and what the accepted graphs of the native one had.
struct Run {
    native: Tally,
    bytes: Tally,
    met: Met,
}

/// Accepted graphs by what their match took.
#[derive(Default)]
struct Met {
    partial: u64,
    searches: u64,
    inner_steps: u64,
    above_fifty: u64,
}

/// Runs `count` graphs and a fifth as many damaged ones through both interfaces, those at the limits, costs around the
/// limits of many n, and answers of many lengths; whether all was alike.
pub fn run(count: u64, random: &mut Random) -> bool {
    let mut run = Run {
        native: Tally::new("match"),
        bytes: Tally::new("match_bytes"),
        met: Met::default(),
    };
    for _ in 0..count {
        run.whole(&graphs::random(random), random);
    }
    for _ in 0..count / 5 {
        run.damaged(&graphs::random(random), random);
    }
    for graph in graphs::at_limits(random) {
        run.whole(&graph, random);
        for _ in 0..20 {
            run.damaged(&graph, random);
        }
    }
    for graph in graphs::at_cost_limits(random) {
        run.whole(&graph, random);
    }
    for call in bytes::around_limit(random) {
        call.compare(&mut run.bytes);
    }
    for numbers in 0..=2 * expected::NUMBERS {
        run.answer_of(numbers, random);
    }
    run.met.print();
    run.native.end() & run.bytes.end()
}

impl Run {
    fn whole(&mut self, graph: &Matrix, random: &mut Random) {
        let lent = native::Lent::new(graph.n as usize, random);
        self.met
            .add(&native::compare(graph, &lent, &mut self.native));
        bytes::Call::new(graph, random).compare(&mut self.bytes);
    }

    /// A graph with an answer of so many numbers: those of fewer counts are refused too.
    fn answer_of(&mut self, numbers: usize, random: &mut Random) {
        let graph = graphs::random(random);
        let mut lent = native::Lent::new(graph.n as usize, random);
        lent.answer.resize(numbers, 7);
        self.met
            .add(&native::compare(&graph, &lent, &mut self.native));
        let mut call = bytes::Call::new(&graph, random);
        call.answer.resize(8 * numbers, 7);
        call.compare(&mut self.bytes);
    }

    /// Damage in the graph goes through both interfaces, damage in a length through one.
    fn damaged(&mut self, graph: &Matrix, random: &mut Random) {
        let mut damaged = graph.clone();
        let mut lent = native::Lent::new(graph.n as usize, random);
        let lengths = random.chance(300);
        if !lengths || random.chance(300) {
            graphs::damage(&mut damaged, random);
        }
        if lengths {
            lent.damage(random);
        }
        self.met
            .add(&native::compare(&damaged, &lent, &mut self.native));
        let mut call = bytes::Call::new(&damaged, random);
        if lengths {
            call.damage(random);
        }
        call.compare(&mut self.bytes);
    }
}

impl Met {
    fn add(&mut self, expected: &Result<Expected, u32>) {
        let Ok(Expected { perm, answer, .. }) = expected else {
            return;
        };
        self.partial += (answer[0] < perm.len() as u64) as u64;
        self.searches += (answer[2] > 0) as u64;
        self.inner_steps += (answer[4] > 0) as u64;
        self.above_fifty += (perm.len() > 50) as u64;
    }

    fn print(&self) {
        println!(
            "accepted graphs: {} with a search, {} with phase 3 inner steps, {} without a complete \
             matching, {} with n above 50",
            self.searches, self.inner_steps, self.partial, self.above_fifty
        );
    }
}
