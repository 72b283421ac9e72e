//! The lives: scripts made from a seed, each kind for something that could go wrong.

mod bench_card;
mod console;
pub mod endings;
mod few_keys;
mod few_marks;
mod full;
pub mod ground;
pub mod kind;
mod lumps;
mod many_machines;
mod odd_words;
mod plans;
mod rooms_at_limits;
mod spoiled_bands;
mod spoiled_words;
pub mod spoiling;
pub mod telling;
mod unsound;
mod wheel;
pub mod writer;
mod wrong_lengths;
mod wrong_words;

use kind::Kind;

/// Every kind of life.
pub const KINDS: &[Kind] = &[
    few_keys::KIND,
    few_marks::KIND,
    many_machines::KIND,
    full::KIND,
    rooms_at_limits::KIND,
    spoiled_words::KIND,
    wrong_lengths::KIND,
    bench_card::KIND,
    wheel::KIND,
    console::KIND,
    lumps::KIND,
];
