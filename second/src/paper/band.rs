//! A band and the keys that it holds ("The hall line").

use super::hall::{is_key_of, judge_key, MACHINES};
use super::refusals::*;
use std::collections::{BTreeMap, BTreeSet};
use std::fmt;

/// The scope of a house band; lower scopes are machines.
pub const HOUSE: u32 = 64;
/// Band numbers are 0 to 1,023.
pub const HIGHEST_NUMBER: u32 = 1_023;

/// The live bands, each under its number.
pub type Bands = BTreeMap<u32, Band>;

/// Two ends, right or wrong, and whether each is closed.
#[derive(Clone, Copy, Debug, PartialEq, Eq)]
pub struct Stretch {
    /// The key of the low end.
    pub low: u32,
    /// The key of the high end.
    pub high: u32,
    /// Whether the low end is held.
    pub low_closed: bool,
    /// Whether the high end is held.
    pub high_closed: bool,
}

/// A band as it is written down, right or wrong.
#[derive(Clone, Copy, Debug, PartialEq, Eq)]
pub struct Band {
    /// Its number.
    pub number: u32,
    /// Its machine, or `HOUSE`.
    pub scope: u32,
    /// Its ends.
    pub stretch: Stretch,
}

impl Stretch {
    /// A stretch whose ends are both closed.
    pub fn closed(low: u32, high: u32) -> Stretch {
        Stretch { low, high, low_closed: true, high_closed: true }
    }

    /// The same ends, closed or not as said.
    pub fn with_closed(self, low_closed: bool, high_closed: bool) -> Stretch {
        Stretch { low_closed, high_closed, ..self }
    }

    /// Whether the key is held.
    pub fn holds(&self, key: u32) -> bool {
        let after_the_low_end = key > self.low || (key == self.low && self.low_closed);
        let before_the_high_end = key < self.high || (key == self.high && self.high_closed);
        after_the_low_end && before_the_high_end
    }

    /// Whether some key is held. If any is, the first or second one tried already is.
    pub fn holds_a_whole_key(&self) -> bool {
        (self.low..=self.high).any(|key| self.holds(key))
    }
}

/// As the desk writes it, the ends as numbers.
impl fmt::Display for Stretch {
    fn fmt(&self, out: &mut fmt::Formatter<'_>) -> fmt::Result {
        let opening = if self.low_closed { '[' } else { '(' };
        let closing = if self.high_closed { ']' } else { ')' };
        write!(out, "{opening}{},{}{closing}", self.low, self.high)
    }
}

impl Band {
    /// Rules 2 to 6, all that can be said of a band by itself.
    pub fn judge(&self) -> Result<(), Refusal> {
        judge_scope(self.scope)?;
        judge_number(self.number)?;
        judge_key(self.stretch.low)?;
        judge_key(self.stretch.high)?;
        refuse_when(!self.stretch.holds_a_whole_key(), NO_WHOLE_KEY)?;
        refuse_when(!self.is_within_scope(), END_OUT_OF_SCOPE)
    }

    /// Whether a machine's band has both written ends among that machine's keys; a house
    /// band may lie anywhere.
    pub fn is_within_scope(&self) -> bool {
        let Stretch { low, high, .. } = self.stretch;
        let is_own = |key| is_key_of(self.scope, key);
        self.scope >= MACHINES || (is_own(low) && is_own(high))
    }
}

/// Rule 2.
pub fn judge_scope(scope: u32) -> Result<(), Refusal> {
    refuse_when(scope > HOUSE, SCOPE_TOO_HIGH)
}

/// Rule 3.
pub fn judge_number(number: u32) -> Result<(), Refusal> {
    refuse_when(number > HIGHEST_NUMBER, NUMBER_TOO_HIGH)
}

/// The keys that are an end of some band.
pub fn all_ends(bands: &Bands) -> BTreeSet<u32> {
    let stretches = bands.values().map(|band| band.stretch);
    stretches.flat_map(|ends| [ends.low, ends.high]).collect()
}
