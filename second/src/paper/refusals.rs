//! The numbers that a call is refused by, with the desk's words for each ("When the box says
//! no"; "Refusals" in `docs/DESK.md`).
//!
//! A call asks its rules one after the other, so that the first which applies is told.

use std::fmt;

/// A refusal, as it is told.
#[derive(Clone, Copy, Debug, PartialEq, Eq)]
pub struct Refusal(&'static str);

/// The rooms are out of range, or a change was asked of memory that is not sound.
pub const SIZES_OR_NOT_SOUND: Refusal = Refusal("1 sizes are out of range, or memory is not sound");
/// The scope is neither a machine nor the house.
pub const SCOPE_TOO_HIGH: Refusal = Refusal("2 scope above 64");
/// There is no such band number.
pub const NUMBER_TOO_HIGH: Refusal = Refusal("3 band number above 1023");
/// A key lies past the end of the hall line.
pub const KEY_TOO_HIGH: Refusal = Refusal("4 key above 2097151");
/// The band holds nothing.
pub const NO_WHOLE_KEY: Refusal = Refusal("5 band holds no whole key");
/// An end of a machine's band is not that machine's key.
pub const END_OUT_OF_SCOPE: Refusal = Refusal("6 an end is not among the machine's keys");
/// A given level is none, or a place on the wheel is.
pub const WRONG_LEVEL_OR_PLACE: Refusal =
    Refusal("7 level not 1 to 8, or wheel place not 1 to 1024");
/// The number is taken by a live band, or by an earlier record of the card.
pub const NUMBER_TAKEN: Refusal = Refusal("8 number is live");
/// No live band has the number.
pub const NUMBER_NOT_LIVE: Refusal = Refusal("9 number is not live");
/// The live band has another scope.
pub const SCOPE_IS_ANOTHER: Refusal = Refusal("10 the band's scope is another");
/// More nodes after the call than the node room.
pub const NODES_EXCEED: Refusal = Refusal("11 nodes after the call would exceed the node room");
/// More marks after the call than the mark room.
pub const MARKS_EXCEED: Refusal = Refusal("12 marks after the call would exceed the mark room");
/// No node at the key, or the node is not in that lane.
pub const NO_NODE_OR_LANE: Refusal = Refusal("13 no node at the key, or it has no such lane");

impl Refusal {
    /// The paper's number.
    pub fn number(self) -> &'static str {
        self.0.split(' ').next().unwrap_or_default()
    }

    /// The words without the number.
    pub fn words(self) -> &'static str {
        self.0[self.number().len()..].trim_start()
    }
}

impl fmt::Display for Refusal {
    fn fmt(&self, out: &mut fmt::Formatter<'_>) -> fmt::Result {
        out.write_str(self.0)
    }
}

/// Refuses where the rule applies.
pub fn refuse_when(applies: bool, refusal: Refusal) -> Result<(), Refusal> {
    if applies {
        Err(refusal)
    } else {
        Ok(())
    }
}
