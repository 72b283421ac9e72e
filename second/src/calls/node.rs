//! The node readout gives a node's level and what is marked on it: 1 for sizes, 4, 13.

use super::stab::bands;
use crate::desk::foreseen::Foreseen;
use crate::desk::form::{numbers, Changes, Command, Form, Sort, Word};
use crate::paper::hall::judge_key;
use crate::paper::marks::{marked_at, Slot};
use crate::paper::profile::Profile;
use crate::paper::refusals::NO_NODE_OR_LANE;

/// Reads out a node.
pub static NODE: Form = Form {
    name: "node",
    takes: &[Sort::Key],
    changes: Changes::Nothing,
    foresee: |desk, words| {
        let [key] = numbers(words);
        let tell = |profile: &Profile| {
            let level = profile.nodes.get(&key).ok_or(NO_NODE_OR_LANE)?;
            let marked = bands(marked_at(&profile.marks, key, Slot::Node));
            Ok(Foreseen::told(format_args!("level {level} {marked}")))
        };
        desk.read_out(desk.marked(), judge_key(key), &["0", "13"], tell)
    },
    answers: &["0", "1", "4", "13"],
};

/// Asks for the node at a key.
pub fn node(key: u32) -> Command {
    NODE.with([Word::Key(key)])
}
