//! Inserting a band makes it live: 1 with the check, 2 to 8, 11 and 12.

use crate::desk::foreseer::{FOR_MEMORY, FOR_SIZES};
use crate::desk::form::{band, numbers, Changes, Command, Form, Sort, Word};
use crate::paper::band::Band;
use crate::paper::lanes::judge_level;
use crate::paper::profile::Profile;
use crate::paper::refusals::{refuse_when, Refusal, NUMBER_TAKEN};

/// Inserts a band, with levels for the nodes at its low and its high end.
pub static INSERT: Form = Form {
    name: "insert",
    takes: &[Sort::BandNumber, Sort::Scope, Sort::Stretch, Sort::Level, Sort::Level],
    changes: Changes::Profile,
    foresee: |desk, words| {
        let [_, _, low_level, high_level] = numbers(words);
        desk.change(|before| after(before, band(words), low_level, high_level))
    },
    answers: &["0", FOR_SIZES, FOR_MEMORY, "2", "3", "4", "5", "6", "7", "8", "11", "12"],
};

/// Asks for the band to be live.
pub fn insert(band: Band, low_level: u32, high_level: u32) -> Command {
    let levels = [low_level, high_level].map(Word::Number);
    INSERT.with(Word::of_band(band).into_iter().chain(levels))
}

/// The profile with the band live. A node that stands keeps its level, and the low end goes
/// first, so that a one-key band takes the low end's level.
fn after(before: &Profile, band: Band, low: u32, high: u32) -> Result<Profile, Refusal> {
    band.judge()?;
    judge_level(low)?;
    judge_level(high)?;
    let (mut bands, mut nodes) = (before.bands.clone(), before.nodes.clone());
    refuse_when(bands.insert(band.number, band).is_some(), NUMBER_TAKEN)?;
    nodes.entry(band.stretch.low).or_insert(low);
    nodes.entry(band.stretch.high).or_insert(high);
    before.changed_to(bands, nodes)
}
