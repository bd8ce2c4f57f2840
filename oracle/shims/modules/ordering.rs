//! Stand-in: the transversal that `layout.rs` names for the structural rank,
//! which the oracle never asks for.

pub mod btf {
    pub fn hk_transversal(_: usize, _: &[usize], _: &[usize], _: bool) -> ((), usize) {
        unreachable!("the oracle asks for no structural rank")
    }
}
