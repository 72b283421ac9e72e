//! The names of the commands, in the order of `docs/DESK.md`, `card` once.

use crate::desk::foreseen::Foreseen;
use crate::desk::form::{Changes, Form};

/// Names the commands.
pub static HELP: Form = Form {
    name: "help",
    takes: &[],
    changes: Changes::Nothing,
    foresee: |_, _| Foreseen::Exactly(NAMES.into(), "0".into()),
    answers: &["0"],
};

const NAMES: &str = "0 memory lengths fill poke peek sum empty insert remove stab check \
                     band edge node room wheel card help";
