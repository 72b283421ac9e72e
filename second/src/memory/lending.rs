//! The words that a desk has, and how many of them it lends.

use super::words::{rooms_of, Slice, Words, SLICES};
use crate::paper::profile::Rooms;

/// How many band, node and mark words the desk has.
pub const STORES: [usize; 3] = [8_200, 41_020, 16_400];

/// Three stores of words, and the length that is lent of each. What is not lent keeps its
/// words.
#[derive(Clone, Debug, PartialEq, Eq)]
pub struct Lending {
    stores: Words,
    lent: [usize; 3],
}

impl Lending {
    /// Zeros throughout, and nothing is lent.
    pub fn nothing() -> Lending {
        Lending { stores: Words(STORES.map(|length| vec![0; length])), lent: [0; 3] }
    }

    /// Lends the first so many words from here on, if there are so many. Words stay.
    pub fn lend(&mut self, lengths: [usize; 3]) -> bool {
        let has_them = lengths.iter().zip(&STORES).all(|(length, most)| length <= most);
        if has_them {
            self.lent = lengths;
        }
        has_them
    }

    /// The rooms that are lent, if sizes are right.
    pub fn rooms(&self) -> Option<Rooms> {
        rooms_of(self.lent)
    }

    /// The lent words of a slice.
    pub fn slice(&self, slice: Slice) -> &[u32] {
        &self.stores.of(slice)[..self.lent[slice as usize]]
    }

    /// The lent words of a slice, to be written.
    pub fn slice_mut(&mut self, slice: Slice) -> &mut [u32] {
        let length = self.lent[slice as usize];
        &mut self.stores.of_mut(slice)[..length]
    }

    /// All lent words.
    pub fn words(&self) -> Words {
        Words(SLICES.map(|slice| self.slice(slice).to_vec()))
    }

    /// Gives the lent words these values; there must be just as many.
    pub fn put(&mut self, words: &Words) {
        for slice in SLICES {
            self.slice_mut(slice).copy_from_slice(words.of(slice));
        }
    }
}
