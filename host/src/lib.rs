//! MC64 matching and scaling of sparse matrices, over the C interface of the proved library libsuontarvi.a.
//!
//! A sparse solver wants large entries on the diagonal. Given a square matrix, MC64 pairs each column with a row so
//! that the product of the paired entries is as large as possible, and the duals of that matching give factors that
//! bring the paired entries to 1 and no other entry above 1.
//!
//! ```
//! use suontarvi::{GeneralMatrix, GeneralRule, Refusal};
//!
//! fn main() -> Result<(), Refusal> {
//!     // row, column and value of each entry, from 0, in any order
//!     let matrix = GeneralMatrix::from_entries(2, [(0, 0, 1.0), (1, 0, 8.0), (0, 1, 1024.0), (1, 1, 3.0)])?;
//!     // by powers of two, so that nothing is rounded
//!     let scaling = matrix.scaling(GeneralRule::Whole)?;
//!     assert_eq!(scaling.matching.pairs().collect::<Vec<_>>(), [(1, 0), (0, 1)]);
//!     assert!(scaling.scaled.values().iter().all(|value| value.abs() < 2.0));
//!     Ok(())
//! }
//! ```
//!
//! There are two layers. [`GeneralMatrix`], [`SymmetricMatrix`], [`CostGraph`] and [`Matching`] own their vectors; a
//! [`Workspace`] is kept for programs that make many calls. Below them, functions in modules take slices that the
//! caller lends, including work, and allocate nothing; [`lengths`] says how long each must be.
//!
//! Every call answers for all contents and lengths of its slices: with a result, or with a [`Refusal`], which leaves
//! everything as it was. Refusals are tested in the order in which they are listed; the first that applies is returned.
//! n is at most 4,096, entries at most 262,144 (131,072 stored ones of a symmetric matrix). Rows and columns count from
//! 0. The library has no `ln` and no `exp`: natural logarithms are the host's, or whole-number ones ([`whole_log`])
//! take their place.
//!
//! The crate links libsuontarvi.a from `target/staticlib` of the repository, where `tools/build.sh suontarvi` writes
//! it, or from the folder that `SUONTARVI_LIB` names. The promises are proved for the library; this crate passes slices on.
//! It panics if the archive answers a number that is not in its table of refusals: then their versions differ.

/// A call with its numbers, then its slices, each as pointer and length: those that it reads, then those that it
/// writes.
macro_rules! lent {
    ($call:ident($($number:expr),*; $($read:ident),*; $($written:ident),*)) => {
        // SAFETY: each pointer and length are those of one slice; the call writes only those lent as `mut` and keeps
        // none.
        $crate::Refusal::answered(unsafe {
            $crate::c::$call(
                $($number,)* $($read.as_ptr(), $read.len(),)* $($written.as_mut_ptr(), $written.len(),)*
            )
        })
    };
}

mod c;
mod columns;
mod cost_graph;
pub mod exponents;
pub mod factors;
mod gap;
mod general;
pub mod graphs;
mod largest;
pub mod lengths;
pub mod matching;
mod one_call;
mod owned_match;
pub mod raw;
mod refusal;
pub mod rows;
pub mod scaling;
pub mod sheets;
pub mod sparse;
mod symmetric;
mod workspace;

pub use columns::Columns;
pub use cost_graph::{CostGraph, RowIndex};
pub use gap::Gap;
pub use general::GeneralMatrix;
pub use largest::{Largest, Shortage};
pub use matching::NONE;
pub use one_call::{Factors, GeneralRule, Scaling, SymmetricRule, product};
pub use owned_match::{Exponents, LogFactors, Matching, SymmetricLogFactors};
pub use refusal::Refusal;
pub use symmetric::{Scaled, SymmetricMatrix};
pub use workspace::Workspace;

/// The square root of `x`, rounded once, to nearest; a NaN and a number below zero are refused with 11.
///
/// ```
/// use suontarvi::{Refusal, sqrt};
///
/// assert_eq!(sqrt(2.0).map(f64::to_bits), Ok(0x3FF6A09E667F3BCD));
/// assert_eq!(sqrt(-1.0), Err(Refusal::NoRoot));
/// ```
pub fn sqrt(x: f64) -> Result<f64, Refusal> {
    let mut root = [0; 8];
    raw::sqrt(x, &mut root)?;
    Ok(f64::from_le_bytes(root))
}

/// The base-two logarithm of the magnitude of `x` in units of 1/65,536, a whole number p: 2^p is at most the magnitude
/// to the power 65,536, which is below 2^(p+2). A zero, a NaN and an infinity are refused with 9.
///
/// ```
/// use suontarvi::{Refusal, whole_log};
///
/// assert_eq!(whole_log(-2.0), Ok(65536));
/// assert_eq!(whole_log(0.0), Err(Refusal::ValueNotFinite));
/// ```
pub fn whole_log(x: f64) -> Result<i32, Refusal> {
    let mut p = [0];
    raw::whole_log(x, &mut p)?;
    Ok(p[0])
}

/// The version of the linked library: major · 2^16 + minor · 2^8 + patch.
///
/// ```
/// assert_eq!(suontarvi::version(), 3 << 8);
/// ```
pub fn version() -> u32 {
    // SAFETY: the call takes nothing and keeps nothing.
    unsafe { c::suontarvi_version() }
}

/// The kept count: the last pointer of an assembled matrix or a built graph.
fn kept(pointers: &[u32]) -> usize {
    pointers.last().map_or(0, |&last| last as usize)
}
