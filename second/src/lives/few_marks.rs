//! Lives in mark rooms so tight that even a remove can need more marks than there are.

use super::ground::Ground;
use super::kind::Kind;
use super::writer::Writer;
use crate::calls::check::check;
use crate::calls::insert::insert;
use crate::calls::lending::{memory, poke};
use crate::calls::remove::remove;
use crate::desk::form::Command;
use crate::memory::words::Slice;
use crate::paper::band::{Band, Stretch, HOUSE};

/// Few marks.
pub const KIND: Kind = Kind {
    name: "few_marks",
    says: "bands over everything and one-key bands under them, in mark rooms too tight to remove",
    seeds: 80,
    write,
};

const CHANGES: u32 = 30;
const SQUEEZES: u32 = 6;

fn write(writer: &mut Writer, _: u64) {
    let step = 1 + writer.dice.below(20) as usize;
    let ends = (100..).step_by(step).take(12).collect();
    let ground =
        Ground { one_key_or_all: true, ..Ground::of_the_house(&mut writer.dice, ends, 20) };
    let marks = 10 + writer.dice.below(40);
    writer.begin(14, marks);
    for _ in 0..CHANGES {
        let change = writer.drawn(&ground);
        writer.change(change, &ground.numbers);
    }
    for _ in 0..SQUEEZES {
        squeeze(writer, &ground);
    }
    the_papers_example(writer);
}

/// The insert of a house band that is closed at both ends.
fn insert_closed(number: u32, (low, high): (u32, u32), low_level: u32) -> Command {
    let band = Band { number, scope: HOUSE, stretch: Stretch::closed(low, high) };
    insert(band, low_level, 1)
}

/// Bands come and go where no more is lent than what is used, or hardly more: one-key bands
/// with low nodes and a tall one among them, under bands that reach over all. The tall node's
/// going pushes the marks of those down, where there are more.
fn squeeze(writer: &mut Writer, ground: &Ground) {
    let dice = &mut writer.dice;
    let last = ground.ends.len() - 1;
    let tall = 2 + dice.below(7);
    let tall_key = ground.ends[2 + dice.below(last as u32 - 2) as usize];
    let over_all = 1 + dice.below(3) as usize;
    let (first_key, last_key) = (ground.ends[0], ground.ends[last]);
    let mut spans = vec![(first_key, last_key); over_all];
    let low_keys = ground.ends[1..last].iter().filter(|&&key| key != tall_key);
    spans.extend(low_keys.map(|&key| (key, key)));
    dice.shuffle(&mut spans);
    writer.begin(14, 200);
    for (&number, span) in ground.numbers[1..].iter().zip(spans) {
        let level = if span.0 == first_key { tall } else { 1 };
        writer.ask(insert_closed(number, span, level));
    }
    save_marks(writer, ground, insert_closed(ground.numbers[0], (tall_key, tall_key), tall));
    let mut bands: Vec<Band> = writer.bands().into_values().collect();
    writer.dice.shuffle(&mut bands);
    for band in bands {
        lend_what_is_used(writer);
        writer.change(remove(band.number, band.scope), &ground.numbers);
        if writer.dice.one_in(4) {
            let insert = writer.drawn_insert(ground);
            writer.change(insert, &ground.numbers);
        }
    }
}

/// Where every mark is taken, a band comes whose tall node leaves more free than it takes:
/// it fits at its end, and not in the middle.
fn save_marks(writer: &mut Writer, ground: &Ground, tall_insert: Command) {
    if let Some((nodes, marks)) = writer.rooms_in_use() {
        writer.ask(memory(nodes + 1, marks));
        writer.ask(check());
    }
    writer.change(tall_insert, &ground.numbers);
}

/// The same profile in the least rooms, but for a mark or two.
fn lend_what_is_used(writer: &mut Writer) {
    if let Some((nodes, marks)) = writer.rooms_in_use() {
        let more = writer.dice.pick(&[0, 0, 0, 1, 2]);
        writer.ask(memory(nodes, marks + more));
        writer.ask(check());
    }
}

/// P9: the fourth band cannot be removed in room for 8 marks, but in room for 9.
fn the_papers_example(writer: &mut Writer) {
    let numbers = [1, 2, 3, 4];
    writer.begin(5, 8);
    let bands = [(1, (10, 50), 2), (2, (20, 20), 1), (4, (40, 40), 2), (3, (30, 30), 1)];
    for (number, ends, level) in bands {
        writer.change(insert_closed(number, ends, level), &numbers);
    }
    writer.change(remove(4, HOUSE), &numbers);
    writer.ask(memory(5, 9));
    // The ninth mark word is whatever an earlier life left there.
    writer.change(remove(4, HOUSE), &numbers);
    writer.ask(poke(Slice::Marks, 8, 0));
    writer.change(remove(4, HOUSE), &numbers);
}
