//! The room readout gives nodes and marks in use: 1 for sizes.

use crate::desk::foreseen::Foreseen;
use crate::desk::form::{Changes, Command, Form};
use crate::paper::profile::Profile;

/// Reads out the room in use.
pub static ROOM: Form = Form {
    name: "room",
    takes: &[],
    changes: Changes::Nothing,
    foresee: |desk, _| {
        let tell = |profile: &Profile| {
            let (nodes, marks) = (profile.nodes.len(), profile.marks.len());
            Ok(Foreseen::told(format_args!("nodes {nodes} marks {marks}")))
        };
        desk.read_out(desk.profile(), Ok(()), &["0"], tell)
    },
    answers: &["0", "1"],
};

/// Asks for it.
pub fn room() -> Command {
    ROOM.with([])
}
