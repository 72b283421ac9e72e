//! The words of a profile (`docs/MEMORY.md`).
//!
//! They are read back by reading only bands, keys and levels: all else must be what laying
//! these would give.

use crate::paper::band::{Band, Bands, Stretch};
use crate::paper::lanes::{Lanes, Nodes, LANES};
use crate::paper::marks::{Mark, Slot};
use crate::paper::profile::{Profile, Rooms};

/// Words of one band place.
pub const BAND_PLACE: usize = 8;
/// Words of all band places.
pub const BAND_WORDS: usize = 8_192;
/// Words of the header, and of each node place.
pub const NODE_PLACE: usize = 20;
/// Where the header has the marks in use, and a node place its fences.
pub const FENCES: usize = 10;

/// One of the three lent slices.
#[derive(Clone, Copy, Debug, PartialEq, Eq, PartialOrd, Ord)]
pub enum Slice {
    /// The band words.
    Bands,
    /// The node words.
    Nodes,
    /// The mark words.
    Marks,
}

/// All slices, in their order.
pub const SLICES: [Slice; 3] = [Slice::Bands, Slice::Nodes, Slice::Marks];

/// The words of the three slices.
#[derive(Clone, Debug, PartialEq, Eq)]
pub struct Words(pub [Vec<u32>; 3]);

impl Words {
    /// The words of one slice.
    pub fn of(&self, slice: Slice) -> &[u32] {
        &self.0[slice as usize]
    }

    /// The words of one slice, to be changed.
    pub fn of_mut(&mut self, slice: Slice) -> &mut Vec<u32> {
        &mut self.0[slice as usize]
    }

    /// The rooms that the lengths make, if sizes are right.
    pub fn rooms(&self) -> Option<Rooms> {
        rooms_of([0, 1, 2].map(|nth: usize| self.0[nth].len()))
    }

    /// The profile that the words say, if they are sound. If they are any sound profile's
    /// words, then they are those of the one with these bands, keys and levels.
    pub fn profile(&self) -> Option<Profile> {
        let read = Profile::sound(self.rooms()?, self.bands(), self.nodes())?;
        (laid(&read) == *self).then_some(read)
    }

    /// The band of each place that says it is live.
    pub fn bands(&self) -> Bands {
        let places = self.of(Slice::Bands).chunks_exact(BAND_PLACE);
        let live = (0..).zip(places).filter(|(_, place)| place[0] == 1);
        live.map(|(number, place)| (number, band_read(number, place))).collect()
    }

    /// The keys and levels of as many nodes as the header says. Where there are not so many
    /// places, or a key stands twice, those read would be laid otherwise.
    pub fn nodes(&self) -> Nodes {
        let mut places = self.of(Slice::Nodes).chunks_exact(NODE_PLACE);
        let in_use = places.next().map_or(0, |header| header[0] as usize);
        let places = places.take(in_use);
        places.map(|place| (place[0], place[1])).collect()
    }
}

/// The rooms that three lengths make, if sizes are right.
pub fn rooms_of([bands, nodes, marks]: [usize; 3]) -> Option<Rooms> {
    let rooms = Rooms { nodes: (nodes / NODE_PLACE).checked_sub(1)? as u32, marks: marks as u32 };
    let are_right = lengths_of(rooms) == [bands, nodes, marks] && rooms.are_right();
    are_right.then_some(rooms)
}

/// The lengths of the three slices that make these rooms.
pub fn lengths_of(rooms: Rooms) -> [usize; 3] {
    let node_words = NODE_PLACE * (rooms.nodes as usize + 1);
    [BAND_WORDS, node_words, rooms.marks as usize]
}

/// What a live band place says, whatever its numbers are.
fn band_read(number: u32, place: &[u32]) -> Band {
    Band {
        number,
        scope: place[1],
        stretch: Stretch {
            low: place[2],
            high: place[3],
            low_closed: place[4] == 1,
            high_closed: place[5] == 1,
        },
    }
}

/// The one memory of a sound profile in its rooms.
pub fn laid(profile: &Profile) -> Words {
    let [bands, nodes, marks] = lengths_of(profile.rooms);
    let mut words = Words([
        laid_bands(&profile.bands),
        laid_nodes(profile),
        profile.marks.iter().map(|mark| mark.band).collect(),
    ]);
    for (slice, length) in words.0.iter_mut().zip([bands, nodes, marks]) {
        slice.resize(length, 0);
    }
    words
}

/// A place for each number; that of a number that is not live stays zero.
fn laid_bands(bands: &Bands) -> Vec<u32> {
    let mut words = vec![0; BAND_WORDS];
    for (&number, band) in bands {
        let Stretch { low, high, low_closed, high_closed } = band.stretch;
        let first = BAND_PLACE * number as usize;
        let said = [1, band.scope, low, high, low_closed.into(), high_closed.into()];
        words[first..first + said.len()].copy_from_slice(&said);
    }
    words
}

/// The header and a place for each node in key order. A fence says how many marks stand
/// before its slot; they are counted on from the fence before it.
fn laid_nodes(profile: &Profile) -> Vec<u32> {
    let Profile { nodes, marks, .. } = profile;
    let keys: Vec<u32> = nodes.keys().copied().collect();
    let mut words = vec![nodes.len() as u32, LANES];
    words.extend(links(&profile.lanes, &keys, None, LANES));
    words.push(marks.len() as u32);
    words.resize(NODE_PLACE, 0);
    let mut fence = 0;
    for (&key, &level) in nodes {
        words.extend([key, level]);
        words.extend(links(&profile.lanes, &keys, Some(key), level));
        for slot in [Slot::Node].into_iter().chain((0..=LANES).map(Slot::Edge)) {
            let stands_before = |mark: &&Mark| (mark.key, mark.slot) < (key, slot);
            fence += marks[fence..].iter().take_while(stands_before).count();
            words.push(fence as u32);
        }
    }
    words
}

/// The links of a node of this level, or of the header, in all lanes; 0 in a lane that it
/// takes no part in, and where nothing comes next. The nodes' places count from 1.
fn links<'a>(
    lanes: &'a Lanes,
    keys: &'a [u32],
    from: Option<u32>,
    level: u32,
) -> impl Iterator<Item = u32> + 'a {
    let place_of = |next| keys.partition_point(|&key| key <= next) as u32;
    let link = move |lane| lanes.next(lane, from).map_or(0, place_of);
    (0..LANES).map(move |lane| if lane < level { link(lane) } else { 0 })
}
