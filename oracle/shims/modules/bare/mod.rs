//! `mc64.rs` with its calls of `ln` and `exp` left out (the build makes that
//! copy), for times beside the port, which has neither. It is given logarithms
//! where the original takes them.

pub(crate) mod mc64;

pub(crate) use crate::scaling::ScalingInfo;

pub(crate) mod hungarian {
    pub(crate) use crate::scaling::{CostGraph, Matching};

    /// No match, so that building is timed alone. The graph counts as read:
    /// the compiler leaves out no part of it.
    pub(crate) fn hungarian_match(graph: &CostGraph<'_>) -> Matching {
        std::hint::black_box(graph);
        Matching {
            perm: Vec::new(),
            u: Vec::new(),
            v: Vec::new(),
            n_matched: 0,
        }
    }
}

pub(crate) trait Bare {
    fn bare(self) -> f64;
}

impl Bare for f64 {
    #[inline(always)]
    fn bare(self) -> f64 {
        self
    }
}
