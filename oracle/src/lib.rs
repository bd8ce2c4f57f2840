//! The original rslab as an oracle: its own files, compiled from the checkout
//! that RSLAB named at build time, behind plain calls for comparison with the
//! port. Indices are `usize`, [`NONE`] for none.
//!
//! Every call does what the original does, also on damaged input: if that
//! panics, so does the call.

include!(concat!(env!("OUT_DIR"), "/tree/root.rs"));

pub mod bare_times;
mod factors;
mod graph;
mod matrix;
pub mod random;
mod refusal;
pub mod text;

pub use factors::Matched;
pub use graph::{Graph, Match};
pub use matrix::{General, Symmetric};
pub use scaling::{ScalingInfo, ScalingStrategy};

/// No row, in `perm`.
pub const NONE: usize = usize::MAX;

/// What the host lends the port: Rust's own logarithm of each magnitude, as
/// the original takes it.
pub fn logs(values: &[f64]) -> Vec<f64> {
    values.iter().map(|value| value.abs().ln()).collect()
}
