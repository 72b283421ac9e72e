//! Memory that is like a sound profile's but for its band words ("Marks").
//!
//! Two memories of right sizes that are alike in header, node and mark places answer a stab
//! and the edge and node readouts alike, whatever stands in their band places. So where the
//! node and mark words are some sound profile's, that profile tells the answers.
//!
//! To find it, its bands are read off its marks. Every live band is marked, from its low end
//! to its high end; and no edge inside it passes over an end, so that it is marked on the node
//! there exactly when the end is closed. Its scope is told by no mark, and plays no part in
//! any: as a band of the house it may lie anywhere.

use super::words::{laid, Slice, Words, FENCES, NODE_PLACE};
use crate::paper::band::{Band, Bands, Stretch, HOUSE};
use crate::paper::lanes::Lanes;
use crate::paper::profile::Profile;

/// A sound profile with these header, node and mark words, if there is one. If there are
/// several, they differ in scopes alone.
pub fn marked_alike(words: &Words) -> Option<Profile> {
    let alike = Profile::sound(words.rooms()?, bands_marked(words), words.nodes())?;
    let laid = laid(&alike);
    let is_alike = |slice| laid.of(slice) == words.of(slice);
    (is_alike(Slice::Nodes) && is_alike(Slice::Marks)).then_some(alike)
}

/// The bands that are marked in the nodes' slots, whose marks the fences count. Where fences
/// or links are wrong, what is read would be laid otherwise.
fn bands_marked(words: &Words) -> Bands {
    let nodes = words.nodes();
    let lanes = Lanes::of(&nodes);
    let mut bands = Bands::new();
    let places = words.of(Slice::Nodes).chunks_exact(NODE_PLACE).skip(1);
    for (&key, place) in nodes.keys().zip(places) {
        for (slot, fences) in (0..).zip(place[FENCES..].windows(2)) {
            // Slot 0 is the node itself, slot 1 + i its edge in lane i.
            let end = match slot {
                0 => Some(key),
                _ => lanes.next(slot - 1, Some(key)),
            };
            let marks = words.of(Slice::Marks);
            let numbers = marks.get(fences[0] as usize..fences[1] as usize);
            if let (Some(end), Some(numbers)) = (end, numbers) {
                for &number in numbers {
                    stretch_to(&mut bands, number, key, end);
                }
            }
        }
    }
    bands
}

/// One more mark of a band, on the edge from a key to another or on the node at both. Marks
/// come by rising keys, and that of a node before those of its edges: an end is closed if the
/// node there is marked, and open if only an edge reaches it.
fn stretch_to(bands: &mut Bands, number: u32, from: u32, to: u32) {
    let band = bands.entry(number).or_insert(Band {
        number,
        scope: HOUSE,
        stretch: Stretch::closed(from, from).with_closed(from == to, from == to),
    });
    let stretch = &mut band.stretch;
    if to > stretch.high {
        (stretch.high, stretch.high_closed) = (to, false);
    }
    stretch.high_closed |= from == to && to == stretch.high;
}
