//! Stand-in: hands on the two original files of constants, and the few that
//! `logging.rs` needs from files not in the checkout.

mod parallel;
mod scaling;

pub use parallel::*;
pub use scaling::*;

pub const LOG_DEBUG: u8 = 10;
pub const LOG_INFO: u8 = 20;
pub const LOG_WARNING: u8 = 30;
pub const LOG_ERROR: u8 = 40;
pub const LOG_OFF: u8 = 50;

pub const SECS_PER_MIN: u64 = 60;
pub const SECS_PER_HOUR: u64 = 60 * SECS_PER_MIN;
pub const SECS_PER_DAY: u64 = 24 * SECS_PER_HOUR;
