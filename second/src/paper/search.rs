//! The search down the lanes, and the looks by taller nodes ("The search").

use super::lanes::{Lanes, Nodes, LANES};
use super::marks::{marked_at, Mark, Slot};
use super::profile::Profile;

/// The band number of each mark that a search for the key takes, from the header in the top
/// lane down to lane 0. It takes the marks of the edge that it drops from only if that edge
/// ends above the key. The header's links and links to nothing are no edges.
pub fn marks_taken(profile: &Profile, key: u32) -> Vec<u32> {
    let Profile { lanes, marks, .. } = profile;
    let mut taken = Vec::new();
    let mut at = None;
    for lane in (0..LANES).rev() {
        at = last_below(lanes, lane, at, key);
        if let (Some(from), Some(to)) = (at, lanes.next(lane, at)) {
            if to > key {
                taken.extend(marked_at(marks, from, Slot::Edge(lane)));
            }
        }
    }
    taken.extend(marks_of_node(marks, key));
    taken
}

/// Steps on in a lane while the next node is below the key.
fn last_below(lanes: &Lanes, lane: u32, mut at: Option<u32>, key: u32) -> Option<u32> {
    while let Some(next) = lanes.next(lane, at).filter(|&next| next < key) {
        at = Some(next);
    }
    at
}

/// The numbers marked on the node at a key; none where no node stands.
fn marks_of_node(marks: &[Mark], key: u32) -> impl Iterator<Item = u32> + '_ {
    marked_at(marks, key, Slot::Node)
}

/// The looks reported: 8 plus the nodes stepped onto. A node is one of these when its key is
/// below the key and no node of greater level stands between it and the key.
pub fn looks(nodes: &Nodes, key: u32) -> u32 {
    let (mut looks, mut tallest_between) = (8, 0);
    for &level in nodes.range(..key).rev().map(|(_, level)| level) {
        looks += u32::from(level >= tallest_between);
        tallest_between = tallest_between.max(level);
    }
    looks
}
