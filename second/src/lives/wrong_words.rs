//! Words that a call refuses, put into a call that is otherwise right.
//!
//! Among them are numbers that would be right if their upper bits were lost.

use crate::desk::form::{Command, Sort, Word};
use crate::dice::Dice;
use crate::paper::band::{Stretch, HIGHEST_NUMBER, HOUSE};
use crate::paper::hall::{HIGHEST_KEY, KEYS_PER_MACHINE};
use crate::paper::lanes::{HIGHEST_LEVEL, LANES};
use crate::paper::wheel::PLACES;

/// Scopes that are neither a machine nor the house.
const HIGH_SCOPES: [u32; 6] = [HOUSE + 1, HOUSE + 2, 256, 256 + HOUSE, 1 << 16, u32::MAX];
/// Numbers that no band can have.
const HIGH_NUMBERS: [u32; 5] = [HIGHEST_NUMBER + 1, HIGHEST_NUMBER + 2, 1 << 16, 1 << 31, u32::MAX];
/// Keys past the end of the hall line.
pub const HIGH_KEYS: [u32; 5] = [HIGHEST_KEY + 1, HIGHEST_KEY + 2, 1 << 24, 1 << 31, u32::MAX];
const NO_LEVELS: [u32; 6] = [0, HIGHEST_LEVEL + 1, 10, 256, 257, u32::MAX];
const NO_LANES: [u32; 4] = [LANES, LANES + 1, 256, u32::MAX];
/// Places that are not on the wheel.
pub const NO_PLACES: [u32; 8] =
    [0, PLACES + 1, PLACES + 2, 2 * PLACES, 1 << 16, (1 << 16) + 1, (1 << 31) + 1, u32::MAX];

/// The call as it is, and once in so many times spoiled.
pub fn spoiled_once_in(times: u32, dice: &mut Dice, call: Command) -> Command {
    if dice.one_in(times) {
        spoiled(dice, call)
    } else {
        call
    }
}

/// The call with something wrong in it, or at times several things, of which the first by the
/// paper is to be told.
pub fn spoiled(dice: &mut Dice, mut call: Command) -> Command {
    spoil(dice, &mut call);
    while dice.one_in(3) {
        spoil(dice, &mut call);
    }
    call
}

/// Another word in one place; a stretch thrice as often, since more can be wrong with it.
fn spoil(dice: &mut Dice, call: &mut Command) {
    let often = |sort: &Sort| if *sort == Sort::Stretch { 3 } else { 1 };
    let places = call.form.takes.iter().enumerate();
    let places: Vec<(usize, &Sort)> =
        places.flat_map(|place| vec![place; often(place.1)]).collect();
    let (nth, sort) = dice.pick(&places);
    let word = &mut call.words[nth];
    *word = match (sort, *word) {
        (Sort::BandNumber, _) => Word::Number(match dice.one_in(2) {
            true => dice.pick(&HIGH_NUMBERS),
            false => dice.below(HIGHEST_NUMBER + 1),
        }),
        (Sort::Scope, _) => Word::Number(match dice.one_in(2) {
            true => dice.pick(&HIGH_SCOPES),
            false => dice.below(HOUSE + 1),
        }),
        (Sort::Level, _) => Word::Number(dice.pick(&NO_LEVELS)),
        (Sort::Lane, _) => Word::Number(dice.pick(&NO_LANES)),
        (Sort::Place, _) => Word::Number(dice.pick(&NO_PLACES)),
        (Sort::Key, _) => Word::Key(dice.pick(&HIGH_KEYS)),
        (_, Word::Stretch(stretch)) => Word::Stretch(spoiled_stretch(dice, stretch)),
        (_, other) => other,
    };
}

/// The stretch with an end past the line or past its machine's border, or such that it holds
/// nothing.
fn spoiled_stretch(dice: &mut Dice, stretch: Stretch) -> Stretch {
    let first_of = |key: u32| key - key % KEYS_PER_MACHINE;
    let (mut low, mut high) = (stretch.low, stretch.high);
    match dice.below(7) {
        0 => low = dice.pick(&HIGH_KEYS),
        1 => high = dice.pick(&HIGH_KEYS),
        2 => low = first_of(low).saturating_sub(1),
        3 => high = first_of(high).saturating_add(KEYS_PER_MACHINE),
        4 => (low, high) = (high, low),
        5 => return Stretch::closed(low, low).with_closed(dice.one_in(2), false),
        _ => return Stretch::closed(low, low.saturating_add(1)).with_closed(false, false),
    }
    Stretch { low, high, ..stretch }
}
