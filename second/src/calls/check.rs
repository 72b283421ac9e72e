//! The check of the whole profile, which is never refused.

use crate::desk::foreseen::Foreseen;
use crate::desk::form::{Changes, Command, Form};

/// Asks whether memory is sound.
pub static CHECK: Form = Form {
    name: "check",
    takes: &[],
    changes: Changes::Nothing,
    foresee: |desk, _| match (desk.profile(), desk.lending().rooms()) {
        (Some(_), _) => Foreseen::whole("yes"),
        (None, Some(_)) => Foreseen::whole("no").counted_as(NO_FOR_WORDS),
        (None, None) => Foreseen::whole("no").counted_as(NO_FOR_SIZES),
    },
    answers: &["yes", NO_FOR_SIZES, NO_FOR_WORDS],
};

const NO_FOR_SIZES: &str = "no for wrong sizes";
const NO_FOR_WORDS: &str = "no for memory not sound";

/// Asks for it.
pub fn check() -> Command {
    CHECK.with([])
}
