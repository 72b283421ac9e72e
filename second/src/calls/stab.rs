//! A stab tells which bands hold a key: 1 for sizes, 4.

use crate::desk::foreseen::Foreseen;
use crate::desk::form::{numbers, Changes, Command, Form, Sort, Word};
use crate::paper::hall::judge_key;
use crate::paper::profile::Profile;
use crate::paper::search::{looks, marks_taken};
use std::collections::BTreeSet;
use std::fmt::Write;

/// Stabs a key.
pub static STAB: Form = Form {
    name: "stab",
    takes: &[Sort::Key],
    changes: Changes::Nothing,
    foresee: |desk, words| {
        let [key] = numbers(words);
        let tell = |profile: &Profile| {
            let taken = marks_taken(profile, key);
            Ok(told(taken, looks(&profile.nodes, key)))
        };
        desk.read_out(desk.marked(), judge_key(key), &["0"], tell)
    },
    answers: &["0", "1", "4"],
};

/// Asks for a stab.
pub fn stab(key: u32) -> Command {
    STAB.with([Word::Key(key)])
}

/// The answer of a search that took these marks: the flags as the numbers of those that are
/// set, the count of them, and the marks met.
pub fn told(taken: Vec<u32>, looks: u32) -> Foreseen {
    let met = taken.len();
    let flags: BTreeSet<u32> = taken.into_iter().collect();
    let count = flags.len();
    let bands = bands(flags);
    Foreseen::told(format_args!("count {count} met {met} looks {looks} {bands}"))
}

/// The word `bands` and these numbers.
pub fn bands(numbers: impl IntoIterator<Item = u32>) -> String {
    let mut text = "bands".to_string();
    for number in numbers {
        let _ = write!(text, " {number}");
    }
    text
}
