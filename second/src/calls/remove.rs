//! Removing a band ends it: 1 with the check, 2, 3, 9, 10 and 12.

use crate::desk::foreseer::{FOR_MEMORY, FOR_SIZES};
use crate::desk::form::{numbers, Changes, Command, Form, Sort, Word};
use crate::paper::band::{all_ends, judge_number, judge_scope};
use crate::paper::profile::Profile;
use crate::paper::refusals::{refuse_when, Refusal, NUMBER_NOT_LIVE, SCOPE_IS_ANOTHER};

/// Removes the band of a number and a scope.
pub static REMOVE: Form = Form {
    name: "remove",
    takes: &[Sort::BandNumber, Sort::Scope],
    changes: Changes::Profile,
    foresee: |desk, words| {
        let [number, scope] = numbers(words);
        desk.change(|before| after(before, number, scope))
    },
    answers: &["0", FOR_SIZES, FOR_MEMORY, "2", "3", "9", "10", "12"],
};

/// Asks for the band to end.
pub fn remove(number: u32, scope: u32) -> Command {
    REMOVE.with([number, scope].map(Word::Number))
}

/// The profile without the band: a node goes only when no live band ends there.
fn after(before: &Profile, number: u32, scope: u32) -> Result<Profile, Refusal> {
    judge_scope(scope)?;
    judge_number(number)?;
    let (mut bands, mut nodes) = (before.bands.clone(), before.nodes.clone());
    let band = bands.remove(&number).ok_or(NUMBER_NOT_LIVE)?;
    refuse_when(band.scope != scope, SCOPE_IS_ANOTHER)?;
    let ends = all_ends(&bands);
    nodes.retain(|key, _| ends.contains(key));
    before.changed_to(bands, nodes)
}
