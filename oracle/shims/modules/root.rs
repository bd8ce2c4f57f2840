// The original's modules at the root of the crate, where their `crate::` paths
// look for them, beside the stand-ins. This file is included by `src/lib.rs`.

macro_rules! quiet {
    ($($name:ident)*) => { $(#[allow(warnings, clippy::all)] mod $name;)* };
}

// Original.
quiet!(error logging parallel scalar scaling);
// Ours around originals.
quiet!(constants sparse recorded tickets bare);
// Ours alone.
quiet!(clock dense memory ordering);
