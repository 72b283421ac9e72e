//! Band words that say other than what is marked.
//!
//! A box that kept its bands on a list and worked out the marks whenever it is asked would
//! answer by these.

use crate::dice::Dice;
use crate::memory::words::BAND_PLACE;
use std::ops::Range;

/// A way to change the band words.
pub type Spoil = fn(&mut Dice, &mut [u32]);

/// Every way.
pub const SPOILS: [Spoil; 6] =
    [none_live, all_gone, one_more, ends_of_another, other_brackets, junk];

/// The words of a place that say the ends and whether they are closed.
const STRETCH: Range<usize> = 2..6;
/// The words among them that say whether an end is closed.
const BRACKETS: Range<usize> = 4..6;

/// The places of the live bands, to be changed.
fn live(bands: &mut [u32]) -> Vec<&mut [u32]> {
    let places = bands.chunks_exact_mut(BAND_PLACE);
    places.filter(|place| place[0] == 1).collect()
}

/// No number is live, and all else stays.
fn none_live(_: &mut Dice, bands: &mut [u32]) {
    live(bands).into_iter().for_each(|place| place[0] = 0);
}

/// As if no band had ever been.
fn all_gone(_: &mut Dice, bands: &mut [u32]) {
    bands.fill(0);
}

/// A number that is not live has the words of a live band, but no mark.
fn one_more(_: &mut Dice, bands: &mut [u32]) {
    let words = live(bands).pop().map(|place| place.to_vec());
    let mut places = bands.chunks_exact_mut(BAND_PLACE);
    let free = places.find(|place| place[0] == 0);
    if let (Some(words), Some(free)) = (words, free) {
        free.copy_from_slice(&words);
    }
}

/// Each live band has the ends of the next one.
fn ends_of_another(_: &mut Dice, bands: &mut [u32]) {
    let live = live(bands);
    let stretches: Vec<Vec<u32>> = live.iter().map(|place| place[STRETCH].to_vec()).collect();
    let of_the_next = stretches.iter().cycle().skip(1);
    for (place, stretch) in live.into_iter().zip(of_the_next) {
        place[STRETCH].copy_from_slice(stretch);
    }
}

/// Closed ends are open and open ones closed.
fn other_brackets(_: &mut Dice, bands: &mut [u32]) {
    for place in live(bands) {
        for word in &mut place[BRACKETS] {
            *word = u32::from(*word == 0);
        }
    }
}

/// Junk here and there.
fn junk(dice: &mut Dice, bands: &mut [u32]) {
    for _ in 0..30 {
        let index = dice.below(bands.len() as u32) as usize;
        bands[index] = dice.pick(&[1, 7, u32::MAX]);
    }
}
