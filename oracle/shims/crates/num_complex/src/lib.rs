//! Stand-in for the crate `num_complex`: the type and the operations that
//! `scalar.rs` names. The oracle compares real values only, so every operation
//! stops the program instead of giving an answer nobody checked.

use std::ops::{Add, Div, Mul, Neg, Sub};

#[derive(Clone, Copy, Debug, PartialEq)]
pub struct Complex<T> {
    pub re: T,
    pub im: T,
}

fn outside() -> ! {
    unreachable!("the oracle computes with real values only")
}

impl<T> Complex<T> {
    pub const fn new(re: T, im: T) -> Self {
        Complex { re, im }
    }

    pub fn norm(self) -> T {
        outside()
    }

    pub fn norm_sqr(&self) -> T {
        outside()
    }

    pub fn conj(&self) -> Self {
        outside()
    }

    pub fn inv(&self) -> Self {
        outside()
    }
}

macro_rules! operators {
    ($($operator:ident $method:ident),*) => {
        $(impl<T> $operator for Complex<T> {
            type Output = Self;
            fn $method(self, _: Self) -> Self {
                outside()
            }
        })*
    };
}

operators!(Add add, Sub sub, Mul mul, Div div);

impl<T> Neg for Complex<T> {
    type Output = Self;
    fn neg(self) -> Self {
        outside()
    }
}
