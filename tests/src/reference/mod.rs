//! Document 01 and the landed requests of document 02 in plain Rust, written from those documents alone and from
//! none of the engine's code. It is slow on purpose: each rule stands where it can be read beside its sentence.

pub mod board;
pub mod cutting;
pub mod exhaustive;
pub mod geometry;
pub mod layout;
pub mod no_default;
pub mod print;
pub mod reader;
pub mod services;
pub mod square_gap;
pub mod unranked_cut;
pub mod walk;
pub mod writer;
