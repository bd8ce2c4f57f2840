//! The unchanged `mc64.rs` a second time, with a recorder beside it where it
//! looks for its matching: so its cost graphs can be read without changing it.

pub(crate) mod hungarian;
#[path = "../scaling/mc64.rs"]
pub(crate) mod mc64;

pub(crate) use crate::scaling::ScalingInfo;
