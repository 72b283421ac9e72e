//! What a desk keeps: the words that it lends, what they say, and the bench card.
//!
//! On memory of right sizes that is not sound, the paper leaves the answers of a stab and of
//! the readouts open, but for one likeness ("Marks"): where the header, node and mark words
//! are those of a sound profile and only band words are not, a stab and the edge and node
//! readouts are answered as that profile answers them.

use super::foreseen::Foreseen;
use crate::memory::lending::Lending;
use crate::memory::likeness::marked_alike;
use crate::memory::words::{laid, lengths_of};
use crate::paper::band::Band;
use crate::paper::profile::{Profile, Rooms};
use crate::paper::refusals::{Refusal, SIZES_OR_NOT_SOUND};
use std::cell::OnceCell;

/// One ground on which a call that checks first is refused by 1.
pub const FOR_SIZES: &str = "1 for wrong sizes";
/// The other ground.
pub const FOR_MEMORY: &str = "1 for memory not sound";

/// The state of a desk, from which its answers are foreseen.
#[derive(Clone, Debug)]
pub struct Foreseer {
    lending: Lending,
    /// The profile that the lent words say, if they are sound; read when it is asked for.
    said: OnceCell<Option<Profile>>,
    /// Where they are not, one that is marked alike; looked for when it is asked for.
    alike: OnceCell<Option<Profile>>,
    /// The records of the bench card, none of them judged.
    pub card: Vec<Band>,
}

impl Default for Foreseer {
    fn default() -> Foreseer {
        Foreseer::new()
    }
}

impl Foreseer {
    /// The state of a fresh desk.
    pub fn new() -> Foreseer {
        let rooms = Rooms { nodes: 2_048, marks: 16_384 };
        let mut fresh = Foreseer {
            lending: Lending::nothing(),
            said: OnceCell::new(),
            alike: OnceCell::new(),
            card: Vec::new(),
        };
        fresh.lending_mut().lend(lengths_of(rooms));
        fresh.put(Profile::empty(rooms));
        fresh
    }

    /// What is lent.
    pub fn lending(&self) -> &Lending {
        &self.lending
    }

    /// What is lent, to be changed: what the words said is forgotten.
    pub fn lending_mut(&mut self) -> &mut Lending {
        self.said.take();
        self.alike.take();
        &mut self.lending
    }

    /// The profile that stands in the lent memory, if that is sound.
    pub fn profile(&self) -> Option<&Profile> {
        let read = || self.lending.words().profile();
        self.said.get_or_init(read).as_ref()
    }

    /// The profile that tells what is marked where: the one that stands or, where only band
    /// words are not sound, one that is marked alike.
    pub fn marked(&self) -> Option<&Profile> {
        let look = || marked_alike(&self.lending.words());
        let alike = || self.alike.get_or_init(look).as_ref();
        self.profile().or_else(alike)
    }

    /// From here on this profile stands in the lent memory, whose rooms it has.
    pub fn put(&mut self, profile: Profile) {
        self.lending_mut().put(&laid(&profile));
        self.said = OnceCell::from(Some(profile));
    }

    /// A change: memory that is not sound refuses it, and so may the paper's other lines for
    /// it. Done, the state after it stands.
    pub fn change(&mut self, after: impl FnOnce(&Profile) -> Result<Profile, Refusal>) -> Foreseen {
        let Some(before) = self.profile() else {
            return self.refused_by_1();
        };
        let after = after(before);
        Foreseen::from(after.map(|after| self.put(after)))
    }

    /// A refusal by 1 of a call that checks first, counted by its ground.
    pub fn refused_by_1(&self) -> Foreseen {
        let ground = match self.lending.rooms() {
            Some(_) => FOR_MEMORY,
            None => FOR_SIZES,
        };
        Foreseen::refused(SIZES_OR_NOT_SOUND).counted_as(ground)
    }

    /// A stab or a readout, which sizes alone refuse by 1. It is told by a profile or, where
    /// there is none, refused by what can be judged of its words; else it is open how it goes
    /// on after one of the first words.
    pub fn read_out(
        &self,
        told_by: Option<&Profile>,
        judged: Result<(), Refusal>,
        open: &'static [&'static str],
        tell: impl FnOnce(&Profile) -> Result<Foreseen, Refusal>,
    ) -> Foreseen {
        if self.lending.rooms().is_none() {
            return Foreseen::refused(SIZES_OR_NOT_SOUND);
        }
        match (judged, told_by) {
            (Err(refusal), _) => Foreseen::refused(refusal),
            (Ok(()), Some(profile)) => tell(profile).unwrap_or_else(Foreseen::refused),
            (Ok(()), None) => Foreseen::Begins(open),
        }
    }
}
