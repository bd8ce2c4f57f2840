//! Stand-in for a file that is not in the checkout. As a child of `scaling` it
//! sees the private modules beside it, so it hands out what the oracle calls.
//! The parent re-exports one name from here; the hand-out therefore bears it.

pub(crate) mod equilibrate_general {
    pub(crate) use crate::scaling::hungarian::hungarian_match_instrumented;
    pub(crate) use crate::scaling::infnorm::{compute_infnorm, compute_onepass};
}
