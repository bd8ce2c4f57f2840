//! Limits, and the lengths of the slices that calls are lent, so that an array can be as long as a call requires.
//!
//! ```
//! use suontarvi::lengths;
//!
//! let work = [0u32; lengths::match_work(3)];
//! assert_eq!(work.len(), 37);
//! ```

/// The most columns, and rows.
pub const MAX_N: usize = 4096;
/// The most entries of a cost graph or a general matrix, and the most triplets of one.
pub const MAX_ENTRIES: usize = 262_144;
/// The most stored entries of a symmetric matrix, and the most triplets of one.
pub const MAX_SYMMETRIC_ENTRIES: usize = 131_072;
/// The most columns of the calls on bytes.
pub const MAX_N_BYTES: usize = 256;
/// The most entries of the match on bytes.
pub const MAX_ENTRIES_BYTES: usize = 2048;
/// The largest magnitude of an exponent.
pub const MAX_EXPONENT: i32 = 67_108_864;

/// Column pointers, and row pointers.
///
/// ```
/// assert_eq!(suontarvi::lengths::pointers(3), 4);
/// ```
pub const fn pointers(n: usize) -> usize {
    n + 1
}

/// The numbers of the match's work.
///
/// ```
/// assert_eq!(suontarvi::lengths::match_work(3), 37);
/// ```
pub const fn match_work(n: usize) -> usize {
    12 * n + 1
}

/// The doubles of the match's work.
///
/// ```
/// assert_eq!(suontarvi::lengths::match_fwork(3), 6);
/// ```
pub const fn match_fwork(n: usize) -> usize {
    2 * n
}

/// The answer of the match: the matched count and seven counts.
pub const MATCH_ANSWER: usize = 8;

/// The work of assembling triplets.
///
/// ```
/// assert_eq!(suontarvi::lengths::triplets_work(3, 8), 16);
/// ```
pub const fn triplets_work(n: usize, triplets: usize) -> usize {
    2 * n + 2 + triplets
}

/// The work of building a cost graph of a matrix with this many stored entries.
///
/// ```
/// assert_eq!(suontarvi::lengths::graph_work(3, 8), 16);
/// ```
pub const fn graph_work(n: usize, entries: usize) -> usize {
    2 * n + 2 + entries
}

/// Room for the entries of the cost graph of a symmetric matrix with this many stored entries.
///
/// ```
/// assert_eq!(suontarvi::lengths::symmetric_graph(8), 16);
/// ```
pub const fn symmetric_graph(entries: usize) -> usize {
    2 * entries
}

/// Room for a sheet file.
///
/// ```
/// assert_eq!(suontarvi::lengths::sheet(3), 89);
/// ```
pub const fn sheet(n: usize) -> usize {
    2 + 29 * n
}
