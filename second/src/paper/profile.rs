//! A profile in its rooms, and when it is sound ("Sound memory").

use super::band::{all_ends, Bands};
use super::lanes::{is_level, Lanes, Nodes};
use super::marks::{marks_by_the_rule, Mark};
use super::refusals::{refuse_when, Refusal, MARKS_EXCEED, NODES_EXCEED};
use std::ops::RangeInclusive;

/// For how many nodes there may be room.
pub const NODE_ROOMS: RangeInclusive<u32> = 1..=2_048;
/// For how many marks there may be room.
pub const MARK_ROOMS: RangeInclusive<u32> = 1..=16_384;

/// For how many nodes and marks a memory has room.
#[derive(Clone, Copy, Debug, PartialEq, Eq)]
pub struct Rooms {
    /// The node room.
    pub nodes: u32,
    /// The mark room.
    pub marks: u32,
}

/// What a memory holds. Those made here are sound; lives that break one change its fields.
#[derive(Clone, Debug, PartialEq, Eq)]
pub struct Profile {
    /// The rooms of its memory.
    pub rooms: Rooms,
    /// The live bands.
    pub bands: Bands,
    /// The nodes and their levels.
    pub nodes: Nodes,
    /// The lanes of these nodes.
    pub lanes: Lanes,
    /// What is marked where, in order.
    pub marks: Vec<Mark>,
}

impl Rooms {
    /// Whether both are in range.
    pub fn are_right(&self) -> bool {
        NODE_ROOMS.contains(&self.nodes) && MARK_ROOMS.contains(&self.marks)
    }
}

impl Profile {
    /// A profile without a band.
    pub fn empty(rooms: Rooms) -> Profile {
        Profile::marked(rooms, Bands::new(), Nodes::new())
    }

    /// These bands and nodes, marked by the rule.
    pub fn marked(rooms: Rooms, bands: Bands, nodes: Nodes) -> Profile {
        let lanes = Lanes::of(&nodes);
        let marks = marks_by_the_rule(&bands, &lanes);
        Profile { rooms, bands, nodes, lanes, marks }
    }

    /// The state after a change, with these bands and nodes in the same rooms. Nothing else
    /// decides 11 and 12.
    pub fn changed_to(&self, bands: Bands, nodes: Nodes) -> Result<Profile, Refusal> {
        let after = Profile::marked(self.rooms, bands, nodes);
        after.judge_room()?;
        Ok(after)
    }

    /// The sound profile of these bands and nodes, if there is one: the bands are right by 2
    /// to 6, a node of a right level stands at each end and nowhere else, and all have room.
    pub fn sound(rooms: Rooms, bands: Bands, nodes: Nodes) -> Option<Profile> {
        let bands_are_right = bands.values().all(|band| band.judge().is_ok());
        let levels_are_right = nodes.values().all(|&level| is_level(level));
        let stands = bands_are_right
            && levels_are_right
            && all_ends(&bands).iter().eq(nodes.keys())
            && rooms.are_right();
        let made = stands.then(|| Profile::marked(rooms, bands, nodes))?;
        made.judge_room().is_ok().then_some(made)
    }

    /// Rules 11 and 12.
    fn judge_room(&self) -> Result<(), Refusal> {
        refuse_when(self.nodes.len() > self.rooms.nodes as usize, NODES_EXCEED)?;
        refuse_when(self.marks.len() > self.rooms.marks as usize, MARKS_EXCEED)
    }
}
