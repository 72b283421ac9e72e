//! Driving a desk: lives are given to it one after the other, its answers are held against
//! those that are foreseen, and what differs is cut down.

pub mod comparing;
pub mod cutting;
pub mod process;
pub mod program;
pub mod running;
pub mod sessions;
pub mod showing;
pub mod talking;
pub mod tally;
