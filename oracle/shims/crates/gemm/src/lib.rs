//! Stand-in for the crate `gemm`: the name that `scalar.rs` calls. Nothing
//! the oracle runs multiplies dense matrices.

/// The arguments of the one call in `scalar.rs`.
#[allow(clippy::too_many_arguments)]
pub fn gemm<T, P>(
    _: usize,
    _: usize,
    _: usize,
    _: *mut T,
    _: isize,
    _: isize,
    _: bool,
    _: *const T,
    _: isize,
    _: isize,
    _: *const T,
    _: isize,
    _: isize,
    _: T,
    _: T,
    _: bool,
    _: bool,
    _: bool,
    _: P,
) {
    unreachable!("the oracle multiplies no dense matrices")
}
