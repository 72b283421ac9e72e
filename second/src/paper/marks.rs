//! Which bands are marked where ("Marks").

use super::band::{Band, Bands};
use super::lanes::{Lanes, LANES};

/// What of a node can bear marks: itself, or its edge in a lane, to the lane's next node.
#[derive(Clone, Copy, Debug, PartialEq, Eq, PartialOrd, Ord)]
pub enum Slot {
    /// The node itself.
    Node,
    /// The edge that leaves it in this lane.
    Edge(u32),
}

/// A band's number at a place. Their order is that of mark places in memory.
#[derive(Clone, Copy, Debug, PartialEq, Eq, PartialOrd, Ord)]
pub struct Mark {
    /// The key of the node.
    pub key: u32,
    /// What of it bears the mark.
    pub slot: Slot,
    /// The number of the band marked.
    pub band: u32,
}

/// Every mark that the rule gives these bands on these lanes, in order.
pub fn marks_by_the_rule(bands: &Bands, lanes: &Lanes) -> Vec<Mark> {
    let mut marks = Vec::new();
    for band in bands.values() {
        mark(band, lanes, &mut marks);
    }
    marks.sort_unstable();
    marks
}

/// The numbers marked at a slot of a node, rising.
pub fn marked_at(marks: &[Mark], key: u32, slot: Slot) -> impl Iterator<Item = u32> + '_ {
    let from = marks.partition_point(|mark| (mark.key, mark.slot) < (key, slot));
    let here = move |mark: &&Mark| (mark.key, mark.slot) == (key, slot);
    marks[from..].iter().take_while(here).map(|mark| mark.band)
}

/// One band's marks. An edge lies inside the band when both its nodes are between the ends.
fn mark(band: &Band, lanes: &Lanes, marks: &mut Vec<Mark>) {
    let (low, high) = (band.stretch.low, band.stretch.high);
    let inside: [&[u32]; LANES as usize] =
        std::array::from_fn(|lane| lanes.between(lane as u32, low, high));
    let mut put = |key, slot| {
        let band = band.number;
        marks.push(Mark { key, slot, band });
    };
    for lane in 0..LANES {
        let above = &inside[lane as usize + 1..];
        for edge in inside[lane as usize].windows(2) {
            if !above.iter().any(|lane| has_edge_over(lane, edge[0], edge[1])) {
                put(edge[0], Slot::Edge(lane));
            }
        }
    }
    for &key in inside[0] {
        let is_passed = inside.iter().any(|lane| has_edge_past(lane, key));
        if band.stretch.holds(key) && !is_passed {
            put(key, Slot::Node);
        }
    }
}

/// Whether an edge between these nodes of a lane contains the one from a key to another.
/// Edges of a lane lie one after the other, so only the last that leaves in time can.
fn has_edge_over(lane: &[u32], from: u32, to: u32) -> bool {
    let begun = lane.partition_point(|&key| key <= from);
    begun > 0 && lane.get(begun).is_some_and(|&end| to <= end)
}

/// Whether an edge between these nodes of a lane passes strictly over the key.
fn has_edge_past(lane: &[u32], key: u32) -> bool {
    let begun = lane.partition_point(|&node| node < key);
    begun > 0 && lane.get(begun).is_some_and(|&end| key < end)
}
