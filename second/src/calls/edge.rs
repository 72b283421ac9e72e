//! The edge readout gives the next node of a lane, or none, and what is marked on the way
//! there: 1 for sizes, 4, 13.

use super::stab::bands;
use crate::desk::foreseen::Foreseen;
use crate::desk::form::{numbers, Changes, Command, Form, Sort, Word};
use crate::paper::hall::judge_key;
use crate::paper::marks::{marked_at, Slot};
use crate::paper::profile::Profile;
use crate::paper::refusals::NO_NODE_OR_LANE;

/// Reads out an edge.
pub static EDGE: Form = Form {
    name: "edge",
    takes: &[Sort::Key, Sort::Lane],
    changes: Changes::Nothing,
    foresee: |desk, words| {
        let [key, lane] = numbers(words);
        let tell = |profile: &Profile| Ok(told(profile, key, lane));
        desk.read_out(desk.marked(), judge_key(key), &["0", "13"], tell)
    },
    answers: &["0", "1", "4", NO_NODE, NO_LANE],
};

const NO_NODE: &str = "13 for no node";
const NO_LANE: &str = "13 for no such lane";

/// Asks for the edge that leaves a node in a lane.
pub fn edge(key: u32, lane: u32) -> Command {
    EDGE.with([Word::Key(key), Word::Number(lane)])
}

/// A link to nothing bears no marks.
fn told(profile: &Profile, key: u32, lane: u32) -> Foreseen {
    let refused = Foreseen::refused(NO_NODE_OR_LANE);
    match profile.nodes.get(&key) {
        None => refused.counted_as(NO_NODE),
        Some(&level) if lane >= level => refused.counted_as(NO_LANE),
        Some(_) => {
            let marked = bands(marked_at(&profile.marks, key, Slot::Edge(lane)));
            match profile.lanes.next(lane, Some(key)) {
                Some(next) => Foreseen::told(format_args!("next {next} {marked}")),
                None => Foreseen::told(format_args!("next none bands")),
            }
        }
    }
}
