//! What the runs of one call met.

use std::fmt::Debug;

/// Differences that are printed; the others are only counted.
const SHOWN: u64 = 5;

/// A longer input is cut off here.
const BRIEF: usize = 1000;

/// Refusals have numbers below this.
const NUMBERS: usize = 47;

pub struct Tally {
    call: &'static str,
    /// Inputs by the number that was expected, 0 for accepted.
    expected: [u64; NUMBERS],
    differences: u64,
}

impl Tally {
    pub fn new(call: &'static str) -> Tally {
        Tally {
            call,
            expected: [0; NUMBERS],
            differences: 0,
        }
    }

    /// One input: the number that was expected, and what differs.
    pub fn add(&mut self, expected: u32, compared: Result<(), String>, input: &dyn Debug) {
        self.expected[expected as usize] += 1;
        if let Err(what) = compared {
            self.differences += 1;
            if self.differences <= SHOWN {
                let text: String = format!("{input:x?}").chars().take(BRIEF).collect();
                println!("{}: {what}; input {text}", self.call);
            }
        }
    }

    /// The line of this call; whether all was alike.
    pub fn end(&self) -> bool {
        let inputs: u64 = self.expected.iter().sum();
        let refused: Vec<String> = (1..self.expected.len())
            .filter(|&number| self.expected[number] != 0)
            .map(|number| format!("{number}: {}", self.expected[number]))
            .collect();
        println!(
            "{}: {inputs} inputs, {} accepted, {} differences (refused with {})",
            self.call,
            self.expected[0],
            self.differences,
            refused.join(", ")
        );
        self.differences == 0
    }
}
