//! An unverified nesting engine that is meant to be fast: pair tests without allocation, conflict tables
//! by offset, rows built once, a walk on bit sets. The benchmark measures the proved engine against it.
//! With the feature `mutants` it can be told to make one of a list of mistakes, which the comparison
//! tests must catch.

pub mod cut;
pub mod distance;
pub mod geometry;
pub mod job;
mod mistaken;
mod mistaken_cut;
pub mod mistaken_default;
pub mod mutant;
mod outline;
pub mod rows;
pub mod save;
pub mod walk;
