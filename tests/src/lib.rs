//! The other side of the comparison: a reference written from documents 01 and 02 alone, jobs, margins and outlines
//! to try, and the answer's packing. Nothing here links the engine.

pub mod answer;
pub mod changes;
pub mod draft;
pub mod generator;
pub mod margins;
pub mod noise;
pub mod outlines;
pub mod reference;
pub mod shapes;
pub mod small_boards;
pub mod small_outlines;
