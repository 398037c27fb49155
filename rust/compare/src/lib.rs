//! The proved calls beside gamma, the Rust original. `graphs` makes rows and starts, `ours` asks the proved calls, `text`
//! writes an input down, `recorded` is the file form of gamma's answers. Where gamma's source was found, `worker` asks it
//! under limits, `reading` compares the reader, `runs` the run from a start to the end, and `plan` says how many of which.
//! The operations on a pairing are compared in the crate `pairings`.
pub mod graphs;
pub mod ours;
pub mod recorded;
pub mod text;

#[cfg(gamma)]
pub mod plan;
#[cfg(gamma)]
pub mod reading;
#[cfg(gamma)]
pub mod runs;
#[cfg(gamma)]
pub mod seen;
#[cfg(gamma)]
pub mod worker;

/// Neighbours by route.
pub type Rows = Vec<Vec<u32>>;

/// For each route its partner, or none.
pub type Partners = Vec<u32>;
