//! Drawing the calls of a life from what it may use.

use crate::calls::insert::insert;
use crate::calls::remove::remove;
use crate::desk::form::Command;
use crate::dice::Dice;
use crate::paper::band::{Band, Bands, Stretch, HOUSE};
use crate::paper::hall::is_key_of;
use crate::paper::lanes::HIGHEST_LEVEL;

/// What a life is drawn from.
#[derive(Clone, Debug)]
pub struct Ground {
    /// The keys that may be ends, rising; few, so that ends meet.
    pub ends: Vec<u32>,
    /// The scopes that bands may have; a machine among them has one of the ends.
    pub scopes: Vec<u32>,
    /// The band numbers in play.
    pub numbers: Vec<u32>,
    /// Whether bands have one key or reach over all, so that a tall node saves many marks.
    pub one_key_or_all: bool,
}

impl Ground {
    /// House bands between these ends, with so many of the telling numbers.
    pub fn of_the_house(dice: &mut Dice, ends: Vec<u32>, numbers: usize) -> Ground {
        Ground {
            ends,
            scopes: vec![HOUSE],
            numbers: telling_numbers(dice, numbers),
            one_key_or_all: false,
        }
    }

    /// An insert or a remove that is mostly accepted where there is room.
    pub fn change(&self, dice: &mut Dice, live: &Bands) -> Command {
        if dice.below(5) < 3 {
            self.insert(dice, live)
        } else {
            self.remove(dice, live)
        }
    }

    /// An insert of a band with ends among the ground's.
    pub fn insert(&self, dice: &mut Dice, live: &Bands) -> Command {
        let band = self.band(dice, live);
        let (low_level, high_level) = (any_level(dice), any_level(dice));
        insert(band, low_level, high_level)
    }

    /// A remove, mostly of a live band with its own scope.
    pub fn remove(&self, dice: &mut Dice, live: &Bands) -> Command {
        if live.is_empty() || dice.one_in(8) {
            return remove(dice.pick(&self.numbers), dice.pick(&self.scopes));
        }
        let band = some_band(dice, live);
        remove(band.number, band.scope)
    }

    /// A band that mostly has a number of its own and holds a whole key.
    pub fn band(&self, dice: &mut Dice, live: &Bands) -> Band {
        let scope = dice.pick(&self.scopes);
        let (low, high) = self.two_ends(dice, scope);
        // A one-key band with an open end would only be refused.
        let closed = self.one_key_or_all || (low == high && !dice.one_in(8));
        let (low_closed, high_closed) = (!dice.one_in(3), !dice.one_in(3));
        Band {
            number: self.number(dice, live),
            scope,
            stretch: Stretch::closed(low, high)
                .with_closed(closed || low_closed, closed || high_closed),
        }
    }

    /// A number in play, mostly one that is not live.
    fn number(&self, dice: &mut Dice, live: &Bands) -> u32 {
        let numbers = self.numbers.iter().copied();
        let free: Vec<u32> = numbers.filter(|number| !live.contains_key(number)).collect();
        if free.is_empty() || dice.one_in(10) {
            dice.pick(&self.numbers)
        } else {
            dice.pick(&free)
        }
    }

    /// The ends of a band of this scope.
    fn two_ends(&self, dice: &mut Dice, scope: u32) -> (u32, u32) {
        let is_own = |&key: &u32| scope == HOUSE || is_key_of(scope, key);
        let own: Vec<u32> = self.ends.iter().copied().filter(is_own).collect();
        if self.one_key_or_all && dice.one_in(4) {
            return (own[0], own[own.len() - 1]);
        }
        let (one, mut other) = (dice.pick(&own), dice.pick(&own));
        if self.one_key_or_all {
            other = one;
        }
        (one.min(other), one.max(other))
    }
}

/// One of the live bands, of which there must be some.
pub fn some_band(dice: &mut Dice, live: &Bands) -> Band {
    let bands: Vec<Band> = live.values().copied().collect();
    dice.pick(&bands)
}

/// A level as tosses of a coin give it: as many as fall the same way, and one.
pub fn tossed_level(dice: &mut Dice) -> u32 {
    1 + dice.roll().trailing_zeros().min(HIGHEST_LEVEL - 1)
}

/// Mostly a tossed level, and at times any of the eight alike.
fn any_level(dice: &mut Dice) -> u32 {
    if dice.one_in(4) {
        1 + dice.below(HIGHEST_LEVEL)
    } else {
        tossed_level(dice)
    }
}

/// So many of the band numbers that stand at the ends of words and of the range.
pub fn telling_numbers(dice: &mut Dice, many: usize) -> Vec<u32> {
    let mut numbers = vec![
        0, 1, 2, 31, 32, 33, 63, 64, 65, 127, 128, 255, 256, 511, 512, 767, 959, 960, 1_022, 1_023,
    ];
    dice.shuffle(&mut numbers);
    numbers.truncate(many);
    numbers
}
