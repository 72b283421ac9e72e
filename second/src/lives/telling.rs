//! Keys that tell the whole story of a profile's answers.
//!
//! Between two nodes next to each other every key is answered alike, so it is enough to ask at
//! each node, beside it, and where the line or a machine begins.

use crate::paper::hall::{first_key, last_key, HIGHEST_KEY, MACHINES};
use crate::paper::lanes::Nodes;
use std::collections::BTreeSet;

/// Each node's key and those one below and one above it, and the ends of the line.
pub fn telling_keys(nodes: &Nodes) -> BTreeSet<u32> {
    let at_ends = [0, HIGHEST_KEY];
    beside(nodes.keys().copied()).chain(at_ends).collect()
}

/// The keys themselves and those one below and one above them, all on the line.
pub fn beside(keys: impl IntoIterator<Item = u32>) -> impl Iterator<Item = u32> {
    let around = |key: u32| [key.saturating_sub(1), key, key.saturating_add(1)];
    let all = keys.into_iter().flat_map(around);
    all.filter(|&key| key <= HIGHEST_KEY)
}

/// The first and last key of every machine.
pub fn machine_borders() -> impl Iterator<Item = u32> {
    (0..MACHINES).flat_map(|machine| [first_key(machine), last_key(machine)])
}
