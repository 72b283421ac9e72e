//! Lives on a handful of keys in small rooms, so that ends meet and room runs out.

use super::ground::{telling_numbers, Ground};
use super::kind::Kind;
use super::writer::Writer;
use super::wrong_words::spoiled_once_in;
use crate::dice::Dice;
use crate::paper::band::HOUSE;
use crate::paper::hall::{HIGHEST_KEY, KEYS_PER_MACHINE};
use std::collections::BTreeSet;

/// Few keys.
pub const KIND: Kind = Kind {
    name: "few_keys",
    says: "few keys and numbers in small rooms, wrong arguments of every sort among them",
    seeds: 180,
    write,
};

/// How many calls are made in each of the rooms.
const CHANGES: u32 = 40;

fn write(writer: &mut Writer, _: u64) {
    let ground = ground(&mut writer.dice);
    for (nodes, marks) in [(14, 60), (7, 30), (14, 60)] {
        let nodes = 1 + writer.dice.below(nodes);
        let marks = 1 + writer.dice.below(marks);
        live(writer, &ground, nodes, marks);
    }
    live(writer, &ground, 14, 60);
}

/// A life in these rooms: right calls and wrong ones, and all asked after each.
fn live(writer: &mut Writer, ground: &Ground, nodes: u32, marks: u32) {
    writer.begin(nodes, marks);
    for _ in 0..CHANGES {
        let change = writer.drawn(ground);
        let change = spoiled_once_in(5, &mut writer.dice, change);
        writer.change(change, &ground.numbers);
    }
}

/// A dozen keys side by side or far apart, with the scopes they allow.
pub fn ground(dice: &mut Dice) -> Ground {
    let side_by_side = |first| (first..first + 12).collect::<Vec<u32>>();
    let ends = match dice.below(5) {
        0 => side_by_side(0),
        1 => side_by_side(HIGHEST_KEY - 11),
        2 => side_by_side((1 + dice.below(63)) * KEYS_PER_MACHINE - 6),
        3 => (0..5).chain(HIGHEST_KEY - 4..=HIGHEST_KEY).collect(),
        _ => {
            let step = 2 + dice.below(100_000) as usize;
            (7..).step_by(step).take(12).collect()
        }
    };
    let machines: BTreeSet<u32> = ends.iter().map(|key| key / KEYS_PER_MACHINE).collect();
    let mut scopes = vec![HOUSE; machines.len()];
    scopes.extend(machines);
    let many = 6 + dice.below(5) as usize;
    Ground { ends, scopes, numbers: telling_numbers(dice, many), one_key_or_all: false }
}
