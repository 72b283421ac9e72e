//! The fixed wheel of levels, so that nobody has to think one up ("A wheel of levels" in
//! "Changes requested after the base").

use super::lanes::HIGHEST_LEVEL;
use super::refusals::{refuse_when, Refusal, WRONG_LEVEL_OR_PLACE};

/// Places on the wheel are 1 to 1,024.
pub const PLACES: u32 = 1_024;

/// What comes back for a place on the wheel.
#[derive(Clone, Copy, Debug, PartialEq, Eq)]
pub struct Turn {
    /// The level at the place.
    pub level: u32,
    /// The place after it.
    pub next: u32,
}

/// A turn, or the refusal of the place.
pub type Turned = Result<Turn, Refusal>;

/// The turn at a place: the last place is followed by the first.
pub fn turned(place: u32) -> Turned {
    judge_place(place)?;
    let next = if place == PLACES { 1 } else { place + 1 };
    Ok(Turn { level: level_at(place), next })
}

/// A number has as many trailing zero bits as it can be halved and leave nothing over. The
/// level is one more, and 8 where that would be more.
fn level_at(place: u32) -> u32 {
    let (mut halved, mut level) = (place, 1);
    while halved % 2 == 0 {
        halved /= 2;
        level += 1;
    }
    level.min(HIGHEST_LEVEL)
}

/// Rule 7 for a place.
fn judge_place(place: u32) -> Result<(), Refusal> {
    refuse_when(place == 0 || place > PLACES, WRONG_LEVEL_OR_PLACE)
}
