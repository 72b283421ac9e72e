//! A long script of stabs, handed over in odd lumps: no line may be lost or torn.

use super::ground::Ground;
use super::kind::Kind;
use super::writer::Writer;
use crate::calls::lending::sum;
use crate::calls::stab::stab;
use crate::paper::hall::HIGHEST_KEY;

/// Lumps.
pub const KIND: Kind =
    Kind { name: "lumps", says: "some 20,000 stabs in odd lumps", seeds: 16, write };

const LUMPS: [usize; 8] = [1, 5, 13, 61, 997, 4_093, 4_097, 65_537];
const BANDS: u32 = 30;
const STABS: u32 = 20_000;

fn write(writer: &mut Writer, seed: u64) {
    writer.made.lump = LUMPS[seed as usize % LUMPS.len()];
    let ends = (0..40).map(|nth| nth * 50_001).collect();
    let ground = Ground::of_the_house(&mut writer.dice, ends, 20);
    writer.begin(100, 1_000);
    for _ in 0..BANDS {
        let insert = writer.drawn_insert(&ground);
        writer.ask(insert);
    }
    for _ in 0..STABS {
        let key = if writer.dice.one_in(3) {
            writer.dice.pick(&ground.ends)
        } else {
            // A few lie past the end of the line.
            writer.dice.below(HIGHEST_KEY + 1_000)
        };
        writer.ask(stab(key));
    }
    writer.ask(sum());
}
