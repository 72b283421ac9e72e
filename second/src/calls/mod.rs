//! The desk's commands, a file for each call of the box: how a line asks for it, what it
//! answers by the paper, and what a run must have seen of it.

pub mod band;
pub mod card;
pub mod check;
pub mod edge;
pub mod empty;
pub mod help;
pub mod insert;
pub mod lending;
pub mod node;
pub mod reading;
pub mod remove;
pub mod room;
pub mod stab;
pub mod wheel;

use crate::desk::form::Form;

/// Every form of commands, in the order of `docs/DESK.md`.
pub const FORMS: &[&Form] = &[
    &lending::MEMORY,
    &lending::LENGTHS,
    &lending::FILL,
    &lending::POKE,
    &lending::PEEK,
    &lending::SUM,
    &empty::EMPTY,
    &insert::INSERT,
    &remove::REMOVE,
    &stab::STAB,
    &check::CHECK,
    &band::BAND,
    &edge::EDGE,
    &node::NODE,
    &room::ROOM,
    &wheel::WHEEL,
    &card::CLEAR,
    &card::ADD,
    &card::SCAN,
    &help::HELP,
];
