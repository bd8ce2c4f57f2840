//! Stand-in: declares the three original files of matrices.

pub mod csc;
pub mod general;
pub mod layout;
