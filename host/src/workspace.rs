//! Work that is lent again.

/// The work that calls are lent, kept from one to the next, so that a program that makes many of them allocates it
/// once. It grows as a call needs it and carries nothing from call to call.
///
/// ```
/// use suontarvi::{CostGraph, Refusal, Workspace};
///
/// let mut workspace = Workspace::new();
/// for n in 1..4 {
///     let graph = CostGraph::from_entries(n, (0..n as u32).map(|k| (k, k, 1.0)))?;
///     assert_eq!(graph.matching_with(&mut workspace).matched as usize, n);
/// }
/// # Ok::<(), Refusal>(())
/// ```
#[derive(Debug, Clone, Default)]
pub struct Workspace {
    numbers: Vec<u32>,
    doubles: Vec<f64>,
}

impl Workspace {
    /// Nothing is allocated yet.
    pub fn new() -> Workspace {
        Workspace::default()
    }

    /// Work of this many numbers.
    pub(crate) fn numbers(&mut self, length: usize) -> &mut [u32] {
        self.lend(length, 0).0
    }

    /// Work of this many numbers and doubles.
    pub(crate) fn lend(&mut self, numbers: usize, doubles: usize) -> (&mut [u32], &mut [f64]) {
        if self.numbers.len() < numbers {
            self.numbers.resize(numbers, 0);
        }
        if self.doubles.len() < doubles {
            self.doubles.resize(doubles, 0.0);
        }
        (&mut self.numbers[..numbers], &mut self.doubles[..doubles])
    }
}
