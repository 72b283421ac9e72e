//! The lent memory (`docs/MEMORY.md`): its words, laid from a profile and read back, and how
//! many of them a desk lends.

pub mod lending;
pub mod likeness;
pub mod words;
