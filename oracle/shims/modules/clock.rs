//! Stand-in: the clock that `logging.rs` reads at its debug level, which the
//! oracle never switches on.

pub use std::time::Instant;

pub fn ms(elapsed: std::time::Duration) -> f64 {
    elapsed.as_secs_f64() * 1e3
}
