//! Nodes and the lanes they take part in ("Nodes, lanes, edges").

use super::refusals::{refuse_when, Refusal, WRONG_LEVEL_OR_PLACE};
use std::collections::BTreeMap;

/// Lanes are 0 to 7.
pub const LANES: u32 = 8;
/// Levels are 1 to 8.
pub const HIGHEST_LEVEL: u32 = 8;

/// Each node's level, under the node's key.
pub type Nodes = BTreeMap<u32, u32>;

/// The keys of the nodes of each lane, rising. Two next to each other are joined by an edge.
#[derive(Clone, Debug, Default, PartialEq, Eq)]
pub struct Lanes([Vec<u32>; LANES as usize]);

impl Lanes {
    /// The lanes of these nodes: one of level h takes part in lanes 0 to h - 1.
    pub fn of(nodes: &Nodes) -> Lanes {
        let mut lanes = Lanes::default();
        for (&key, &level) in nodes {
            for lane in lanes.0.iter_mut().take(level as usize) {
                lane.push(key);
            }
        }
        lanes
    }

    /// The nodes of a lane from one key to another, both counted.
    pub fn between(&self, lane: u32, low: u32, high: u32) -> &[u32] {
        let lane = &self.0[lane as usize];
        let from = lane.partition_point(|&key| key < low);
        let to = lane.partition_point(|&key| key <= high);
        &lane[from..to.max(from)]
    }

    /// The lane's first node after a node, or after the header when there is none.
    pub fn next(&self, lane: u32, from: Option<u32>) -> Option<u32> {
        let lane = &self.0[lane as usize];
        let passed = from.map_or(0, |from| lane.partition_point(|&key| key <= from));
        lane.get(passed).copied()
    }
}

/// Whether a level is one that a node may have.
pub fn is_level(level: u32) -> bool {
    (1..=HIGHEST_LEVEL).contains(&level)
}

/// Rule 7 for a level.
pub fn judge_level(level: u32) -> Result<(), Refusal> {
    refuse_when(!is_level(level), WRONG_LEVEL_OR_PLACE)
}
