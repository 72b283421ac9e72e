//! Seeded dice, so that every run repeats from its seeds.

use std::collections::BTreeSet;

/// A small generator (splitmix64): the state walks on by a fixed stride and each
/// roll is a stirred copy of it.
#[derive(Clone, Debug)]
pub struct Dice {
    state: u64,
}

impl Dice {
    /// Dice that always roll the same from the same seed.
    pub fn seeded(seed: u64) -> Dice {
        Dice { state: seed }
    }

    /// Dice of their own for every name and seed.
    pub fn of(name: &str, seed: u64) -> Dice {
        let stir = |state, byte| Dice::seeded(state ^ u64::from(byte)).roll();
        Dice::seeded(name.bytes().fold(seed, stir))
    }

    /// Any 64 bits.
    pub fn roll(&mut self) -> u64 {
        self.state = self.state.wrapping_add(0x9e37_79b9_7f4a_7c15);
        let mut stirred = self.state;
        stirred = (stirred ^ (stirred >> 30)).wrapping_mul(0xbf58_476d_1ce4_e5b9);
        stirred = (stirred ^ (stirred >> 27)).wrapping_mul(0x94d0_49bb_1331_11eb);
        stirred ^ (stirred >> 31)
    }

    /// A number below the bound, which must not be 0.
    pub fn below(&mut self, bound: u32) -> u32 {
        (self.roll() % u64::from(bound)) as u32
    }

    /// True about once in so many times.
    pub fn one_in(&mut self, times: u32) -> bool {
        self.below(times) == 0
    }

    /// One of the things, of which there must be some.
    pub fn pick<T: Clone>(&mut self, things: &[T]) -> T {
        things[self.below(things.len() as u32) as usize].clone()
    }

    /// Puts things into an order of the dice's.
    pub fn shuffle<T>(&mut self, things: &mut [T]) {
        for last in (1..things.len()).rev() {
            things.swap(last, self.below(last as u32 + 1) as usize);
        }
    }

    /// So many different numbers below the bound, rising.
    pub fn different(&mut self, many: usize, bound: u32) -> Vec<u32> {
        let mut drawn = BTreeSet::new();
        while drawn.len() < many {
            drawn.insert(self.below(bound));
        }
        drawn.into_iter().collect()
    }
}
