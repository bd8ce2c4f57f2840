//! `mc64.rs` with its two calls of `exp` replaced by `ticket` (the build makes
//! that copy). A ticket takes the factor's way through the code behind the
//! call, and at the end is exchanged for the logarithm it stands for. The
//! logarithm itself could not go that way: 0 would be rewritten to 1 there.

pub(crate) mod mc64;

pub(crate) use crate::scaling::ScalingInfo;
use std::cell::RefCell;
use std::num::FpCategory::{Infinite, Nan, Zero};

pub(crate) mod hungarian {
    pub(crate) use crate::scaling::{hungarian_match, CostGraph, Matching};
}

thread_local! {
    static LOGS: RefCell<Vec<f64>> = const { RefCell::new(Vec::new()) };
}

/// Tickets count up from here: 1 is the identity factor and no ticket.
const FIRST: usize = 2;

pub(crate) trait Ticket {
    fn ticket(self) -> f64;
}

impl Ticket for f64 {
    /// A ticket for this logarithm; its `exp` where the code behind would not
    /// let that through, so that it is turned away alike.
    fn ticket(self) -> f64 {
        let factor = self.exp();
        if matches!(factor.classify(), Infinite | Nan | Zero) {
            return factor;
        }
        LOGS.with_borrow_mut(|logs| {
            logs.push(self);
            (logs.len() - 1 + FIRST) as f64
        })
    }
}

/// What `run` answers and the logarithms whose tickets it holds.
pub(crate) fn with_tickets<R>(run: impl FnOnce() -> R) -> (R, Vec<f64>) {
    LOGS.take();
    let answer = run();
    (answer, LOGS.take())
}

/// The logarithm behind each ticket; the identity factor stands for 0.
pub(crate) fn exchange(tickets: &[f64], logs: &[f64]) -> Vec<f64> {
    let log_of = |&ticket: &f64| match ticket as usize {
        1 => 0.0,
        number => logs[number - FIRST],
    };
    tickets.iter().map(log_of).collect()
}
