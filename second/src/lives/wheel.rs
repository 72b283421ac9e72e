//! The wheel of levels: all of it in turn, places that are not on it, and bands that take
//! their levels from it; and that no memory, whatever is lent and written there, plays a part.

use super::kind::Kind;
use super::many_machines;
use super::spoiling::spoil_one_by_one;
use super::telling::beside;
use super::writer::Writer;
use super::wrong_lengths::wrong_ones;
use super::wrong_words::{spoiled, NO_PLACES};
use crate::calls::card::{card_add, card_scan};
use crate::calls::check::check;
use crate::calls::insert::insert;
use crate::calls::lending::{fill, memory};
use crate::calls::node::node;
use crate::calls::wheel::wheel;
use crate::paper::wheel::{turned, Turn, PLACES};

/// The wheel.
pub const KIND: Kind = Kind {
    name: "wheel",
    says: "the wheel once round, places that are none, bands with its levels, any memory lent",
    seeds: 6,
    write,
};

const ROOMS: (u32, u32) = (100, 1_000);
const INSERTS: u32 = 40;
/// How many places are drawn just past the last one, and how many anywhere.
const DRAWN: u32 = 12;
/// How many words are changed by hand, each by itself.
const SPOILED: usize = 20;

fn write(writer: &mut Writer, _: u64) {
    insert_with_its_levels(writer);
    // What the wheel could change by mistake: the words, and a record on the card.
    let record = writer.bands().into_values().next().expect("a live band");
    writer.ask(card_add(record));
    go_round(writer);
    ask_for_no_places(writer);
    writer.ask_what_stands();
    lend_wrong_sizes(writer);
    spoil_one_by_one(writer, SPOILED, |writer| {
        writer.ask(check());
        ask_anywhere(writer);
    });
    fill_with_junk(writer);
    writer.ask(card_scan(record.stretch.low));
}

/// The level at a place of the wheel, which is asked for it.
fn turn(writer: &mut Writer, place: u32) -> Turn {
    writer.ask(wheel(place));
    turned(place).expect("a place on the wheel")
}

/// Bands take two levels each from the wheel, place after place and on past the last one; a
/// band that is refused leaves its levels to the next.
fn insert_with_its_levels(writer: &mut Writer) {
    let ground = many_machines::ground(&mut writer.dice);
    let mut place = PLACES - writer.dice.below(INSERTS);
    writer.begin(ROOMS.0, ROOMS.1);
    for _ in 0..INSERTS {
        let low = turn(writer, place);
        let high = turn(writer, low.next);
        let bands = writer.bands();
        let band = ground.band(&mut writer.dice, &bands);
        if writer.ask(insert(band, low.level, high.level)) {
            place = high.next;
        }
        let ends = [band.stretch.low, band.stretch.high];
        for end in ends {
            writer.ask(node(end));
        }
        writer.ask_stabs(beside(ends));
    }
    writer.ask_what_stands();
    writer.ask_marks(&writer.nodes());
}

/// Every place once, each told by the one before it, and the first again.
fn go_round(writer: &mut Writer) {
    let mut place = 1;
    for _ in 0..=PLACES {
        place = turn(writer, place).next;
    }
}

/// Places that are none: those that tell most, some just past the last, and any at all.
fn ask_for_no_places(writer: &mut Writer) {
    for place in NO_PLACES {
        writer.ask(wheel(place));
    }
    for _ in 0..DRAWN {
        let past = PLACES + 1 + writer.dice.below(PLACES);
        let any = writer.dice.roll() as u32;
        for place in [past, any] {
            writer.ask(wheel(place));
        }
    }
}

/// A place anywhere on the wheel, and one that is none.
fn ask_anywhere(writer: &mut Writer) {
    let right = wheel(1 + writer.dice.below(PLACES));
    let wrong = spoiled(&mut writer.dice, right.clone());
    for command in [right, wrong] {
        writer.ask(command);
    }
}

/// Lengths by which every call that is lent them is refused.
fn lend_wrong_sizes(writer: &mut Writer) {
    for wrong in wrong_ones(ROOMS.0, ROOMS.1) {
        writer.ask(wrong);
        ask_anywhere(writer);
    }
    writer.ask(memory(ROOMS.0, ROOMS.1));
    writer.ask_what_stands();
}

/// Every word the same, so that no profile stands.
fn fill_with_junk(writer: &mut Writer) {
    for word in [0, 7, u32::MAX] {
        writer.ask(fill(word));
        ask_anywhere(writer);
        writer.ask_what_stands();
    }
}
