//! Which words of a sound memory are worth changing, and to what; and changing one after the
//! other.

use super::writer::Writer;
use crate::calls::check::check;
use crate::calls::lending::poke;
use crate::dice::Dice;
use crate::memory::words::{Slice, Words, BAND_PLACE, FENCES, NODE_PLACE, SLICES};
use std::collections::BTreeSet;

/// A word by its slice and its index there.
pub type Spot = (Slice, u32);

const BAND: u32 = BAND_PLACE as u32;
const NODE: u32 = NODE_PLACE as u32;

/// The word at a spot; 0 where there is none.
pub fn word_at(words: &Words, (slice, index): Spot) -> u32 {
    let word = words.of(slice).get(index as usize);
    word.copied().unwrap_or(0)
}

/// All spots of a memory.
pub fn all_spots(words: &Words) -> impl Iterator<Item = Spot> + '_ {
    let indices = |slice| 0..words.of(slice).len() as u32;
    SLICES.into_iter().flat_map(move |slice| indices(slice).map(move |index| (slice, index)))
}

/// Pokes so many words, each by itself, asks what is to be asked then, and puts it back.
pub fn spoil_one_by_one(writer: &mut Writer, many: usize, ask: impl Fn(&mut Writer)) {
    let words = writer.words();
    for spot in some_of_every_sort(&words, many, &mut writer.dice) {
        let word = another_word(&words, spot, &mut writer.dice);
        poke_at(writer, spot, word);
        ask(writer);
        poke_at(writer, spot, word_at(&words, spot));
        writer.ask(check());
    }
    writer.ask_what_stands();
}

/// Pokes a word.
pub fn poke_at(writer: &mut Writer, (slice, index): Spot, word: u32) {
    writer.ask(poke(slice, index, word));
}

/// Every word in use (the header's, the nodes', the marks', the live bands'), and some that
/// are free: a place of each sort, the words next to those in use, the last ones, and a few
/// anywhere.
pub fn telling_words(words: &Words, dice: &mut Dice) -> Vec<Spot> {
    let nodes_end = NODE * (word_at(words, (Slice::Nodes, 0)) + 2);
    let marks_end = word_at(words, (Slice::Nodes, FENCES as u32)) + 2;
    let free = [0; 3].map(|_| dice.below(1_024));
    let is_telling = |&(slice, index): &Spot| {
        let is_last = index as usize + 1 == words.of(slice).len();
        is_last
            || dice.one_in(4_000)
            || match slice {
                Slice::Bands => is_live(words, index) || free.contains(&(index / BAND)),
                Slice::Nodes => index < nodes_end,
                Slice::Marks => index < marks_end,
            }
    };
    all_spots(words).filter(is_telling).collect()
}

/// Whether a band word belongs to a live band.
fn is_live(words: &Words, index: u32) -> bool {
    word_at(words, (Slice::Bands, index - index % BAND)) == 1
}

/// So many of the telling words in no order, some of every sort among them.
pub fn some_of_every_sort(words: &Words, many: usize, dice: &mut Dice) -> Vec<Spot> {
    let mut spots = telling_words(words, dice);
    dice.shuffle(&mut spots);
    let mut met = BTreeSet::new();
    let is_first = |&spot: &Spot| met.insert(sort_of(words, spot));
    let (mut chosen, more): (Vec<Spot>, Vec<Spot>) = spots.into_iter().partition(is_first);
    chosen.extend(more);
    chosen.truncate(many);
    dice.shuffle(&mut chosen);
    chosen
}

/// What a word is: its slice, which word of its place it is, and whether its place is in use.
/// The header's words stand before those of nodes.
pub fn sort_of(words: &Words, (slice, index): Spot) -> (Slice, u32, bool) {
    match slice {
        Slice::Bands => (slice, index % BAND, is_live(words, index)),
        Slice::Nodes if index < NODE => (slice, index, true),
        Slice::Nodes => {
            let in_use = index / NODE <= word_at(words, (slice, 0));
            (slice, NODE + index % NODE, in_use)
        }
        Slice::Marks => {
            let in_use = word_at(words, (Slice::Nodes, FENCES as u32));
            (slice, 0, index < in_use)
        }
    }
}

/// Telling words next to each other that are not the same.
pub fn neighbours(words: &Words, dice: &mut Dice) -> Vec<(Spot, Spot)> {
    let pair = |(slice, index): Spot| ((slice, index), (slice, index + 1));
    let pairs = telling_words(words, dice).into_iter().map(pair);
    let is_lent = |(slice, index): Spot| (index as usize) < words.of(slice).len();
    pairs
        .filter(|&(one, next)| is_lent(next) && word_at(words, one) != word_at(words, next))
        .collect()
}

/// Another word for a spot: nothing, one more or less, a word near by, a small number that may
/// be a place or a level, or a large one.
pub fn another_word(words: &Words, spot: Spot, dice: &mut Dice) -> u32 {
    let stands = word_at(words, spot);
    let (slice, index) = spot;
    let away = dice.pick(&[1, 2, BAND, NODE]);
    let drawn = match dice.below(8) {
        0 => 0,
        1 => stands.wrapping_add(1),
        2 => stands.wrapping_sub(1),
        3 => word_at(words, (slice, index + away)),
        4 => word_at(words, (slice, index.saturating_sub(away))),
        5 => dice.below(12),
        6 => dice.pick(&[64, 65, 1_024, 2_048, 2_097_151, 2_097_152]),
        _ => dice.pick(&[1 << 16, 1 << 31, u32::MAX - 1, u32::MAX]),
    };
    if drawn == stands {
        stands.wrapping_add(1)
    } else {
        drawn
    }
}
