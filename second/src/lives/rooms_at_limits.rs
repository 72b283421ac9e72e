//! Rooms just as large as needed and one less, the smallest and the largest.

use super::ground::Ground;
use super::kind::Kind;
use super::spoiling::spoil_one_by_one;
use super::writer::Writer;
use crate::calls::check::check;
use crate::calls::empty::empty;
use crate::calls::insert::insert;
use crate::calls::lending::memory;
use crate::calls::remove::remove;
use crate::desk::foreseer::Foreseer;
use crate::desk::form::Command;
use crate::dice::Dice;
use crate::paper::band::{Band, Stretch, HOUSE};

/// Rooms at their limits.
pub const KIND: Kind = Kind {
    name: "rooms_at_limits",
    says: "rooms exactly as large as needed, one less, the least and the most; memory lent anew",
    seeds: 64,
    write,
};

fn write(writer: &mut Writer, _: u64) {
    the_smallest(writer);
    for _ in 0..3 {
        just_enough(writer);
    }
    lend_anew(writer);
    the_largest(writer);
}

/// In room for one node and one mark a one-key band has its place and nothing beside it; in
/// room for two nodes and one mark a band that is open at both ends.
fn the_smallest(writer: &mut Writer) {
    let key = writer.dice.below(2_000_000);
    let level = 1 + writer.dice.below(8);
    let numbers = [0, 1_022, 1_023];
    let one_key = Stretch::closed(key, key);
    let two_keys = Stretch::closed(key, key + 2);
    let inserts = [
        (1_023, one_key),
        (0, one_key),
        (0, Stretch::closed(key + 1, key + 1)),
        (0, two_keys.with_closed(false, false)),
        (0, two_keys.with_closed(true, false)),
        (1_022, two_keys),
    ];
    let inserts = inserts.map(|(number, stretch)| {
        let scope = HOUSE;
        insert(Band { number, scope, stretch }, level, level)
    });
    writer.begin(1, 1);
    spoil_one_by_one(writer, 60, |writer| {
        writer.ask(check());
    });
    for (nodes, marks) in [(1, 1), (2, 1), (1, 2), (2, 2), (2, 3)] {
        writer.begin(nodes, marks);
        let removes = [1_023, 1_023, 0].map(|number| remove(number, HOUSE));
        let changes = inserts.iter().chain(&removes).chain(&inserts);
        for change in changes {
            writer.change(change.clone(), &numbers);
        }
    }
}

/// A ground of a few keys anywhere on the line.
fn ground(dice: &mut Dice) -> Ground {
    let many = 5 + dice.below(8) as usize;
    let ends = dice.different(many, 2_097_152);
    Ground { one_key_or_all: dice.one_in(3), ..Ground::of_the_house(dice, ends, 12) }
}

/// Inserts that are all accepted by a desk with room to spare, and the least rooms for that.
fn inserts(dice: &mut Dice, ground: &Ground) -> (Vec<Command>, u32, u32) {
    let mut desk = Foreseer::new();
    let mut accepted = Vec::new();
    let (mut nodes, mut marks) = (1, 1);
    for _ in 0..10 {
        let bands = desk.profile().map(|profile| profile.bands.clone());
        let insert = ground.insert(dice, &bands.unwrap_or_default());
        if insert.foresee(&mut desk).is_done() {
            accepted.push(insert);
        }
        if let Some(profile) = desk.profile() {
            nodes = nodes.max(profile.nodes.len() as u32);
            marks = marks.max(profile.marks.len() as u32);
        }
    }
    (accepted, nodes, marks)
}

/// The same inserts in just the rooms they need, and in one node or one mark less.
fn just_enough(writer: &mut Writer) {
    let ground = ground(&mut writer.dice);
    let (inserts, nodes, marks) = inserts(&mut writer.dice, &ground);
    for (less_nodes, less_marks) in [(0, 0), (1, 0), (0, 1), (1, 1)] {
        writer.begin((nodes - less_nodes).max(1), (marks - less_marks).max(1));
        for insert in &inserts {
            let is_done = writer.ask(insert.clone());
            writer.ask_what_stands();
            if !is_done {
                writer.ask_all(&ground.numbers);
            }
        }
        writer.ask_all(&ground.numbers);
        for _ in 0..6 {
            let change = writer.drawn(&ground);
            writer.change(change, &ground.numbers);
        }
    }
}

/// Rooms near those in use, lent one after the other: words past an older memory's end are
/// still there, and a profile that lost some is sound no more.
fn lend_anew(writer: &mut Writer) {
    let ground = ground(&mut writer.dice);
    writer.begin(12, 80);
    for _ in 0..40 {
        let change = writer.drawn(&ground);
        writer.ask(change);
        writer.ask_what_stands();
        if writer.dice.one_in(2) {
            let (nodes, marks) = writer.rooms_in_use().unwrap_or((12, 80));
            let nodes = (nodes + writer.dice.below(4)).saturating_sub(1).max(1);
            let marks = (marks + writer.dice.below(6)).saturating_sub(2).max(1);
            writer.ask(memory(nodes, marks));
            writer.ask_what_stands();
            writer.ask_stabs(ground.ends.clone());
        }
        if !writer.is_sound() && writer.dice.one_in(3) {
            writer.ask(empty());
            writer.ask_what_stands();
        }
    }
}

/// The largest rooms are lent, and nothing larger.
fn the_largest(writer: &mut Writer) {
    let ground = ground(&mut writer.dice);
    writer.begin(2_048, 16_384);
    for _ in 0..8 {
        let insert = writer.drawn_insert(&ground);
        writer.change(insert, &ground.numbers);
    }
    for (nodes, marks) in [(2_049, 16_384), (2_048, 16_385), (2_048, 16_384)] {
        writer.ask(memory(nodes, marks));
        writer.ask_what_stands();
        writer.ask_stabs(ground.ends.clone());
        let change = writer.drawn(&ground);
        writer.change(change, &ground.numbers);
    }
}
