//! Operations on a pairing by itself, from Rust: `operation` says what they are and writes them as numbers, `plain` is a
//! plain reading of their refusals, `random` makes them, `sample` records gamma's answers to some of them, and `gamma` is
//! gamma's own `pairing.rs`, where it was found.
pub mod operation;
pub mod plain;
pub mod random;
pub mod sample;

/// gamma's `Pairing`, compiled unchanged.
#[cfg(gamma)]
pub mod gamma {
    pub use ::gamma::{asked, matching::Pairing};
}

/// What a test prints in place of a comparison with gamma, where gamma's source was not found.
pub use ::gamma::LEFT_OUT;
