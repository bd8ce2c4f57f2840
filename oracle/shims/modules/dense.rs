//! Stand-in: what `scalar.rs` and `csc.rs` name of the dense kernels. Never
//! called.

pub mod matrix {
    pub struct SymmetricMatrix<T> {
        pub n: usize,
        pub data: Vec<T>,
    }
}

pub mod gemm_backend {
    pub struct GemmMode {
        pub parallelism: (),
    }

    pub unsafe fn complex_gemm<T>(
        _: usize,
        _: usize,
        _: usize,
        _: *mut T,
        _: isize,
        _: isize,
        _: bool,
        _: *const T,
        _: isize,
        _: isize,
        _: *const T,
        _: isize,
        _: isize,
        _: T,
        _: T,
        _: bool,
        _: bool,
        _: bool,
        _: GemmMode,
    ) {
        unreachable!("the oracle multiplies no dense matrices")
    }
}
