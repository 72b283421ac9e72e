//! A second reading of the paper "Build scope and exact rules", which drives a desk and holds
//! every line that it answers against the line that it foresees itself.
//!
//! The modules stand in layers: a file imports only from folders before its own, and within a
//! folder no two import each other.

#![forbid(unsafe_code)]
#![warn(missing_docs)]

pub mod dice;

pub mod paper;

pub mod memory;

pub mod desk;

pub mod calls;

pub mod lives;

pub mod drive;

#[cfg(test)]
mod tests;
