//! Making an empty profile, whatever the memory held: refused by 1, for sizes alone.

use crate::desk::foreseen::Foreseen;
use crate::desk::form::{Changes, Command, Form};
use crate::paper::profile::Profile;
use crate::paper::refusals::SIZES_OR_NOT_SOUND;

/// Makes an empty profile.
pub static EMPTY: Form = Form {
    name: "empty",
    takes: &[],
    changes: Changes::Profile,
    foresee: |desk, _| {
        let rooms = desk.lending().rooms().ok_or(SIZES_OR_NOT_SOUND);
        Foreseen::from(rooms.map(|rooms| desk.put(Profile::empty(rooms))))
    },
    answers: &["0", "1"],
};

/// Asks for it.
pub fn empty() -> Command {
    EMPTY.with([])
}
