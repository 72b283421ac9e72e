//! Full profiles: 1,024 bands in the largest rooms, and what is refused there.

use super::ground::{some_band, tossed_level};
use super::kind::Kind;
use super::plans::{Place, BANDS, PLANS};
use super::spoiling::spoil_one_by_one;
use super::telling::telling_keys;
use super::writer::Writer;
use crate::calls::check::check;
use crate::calls::insert::insert;
use crate::calls::lending::{lengths, memory};
use crate::calls::remove::remove;
use crate::desk::form::Command;
use crate::dice::Dice;
use crate::paper::band::{Band, Stretch};
use crate::paper::hall::HIGHEST_KEY;

/// Full.
pub const KIND: Kind = Kind {
    name: "full",
    says: "1,024 bands and up to 2,048 nodes, grown band by band, then spoiled and changed",
    seeds: 4,
    write,
};

const ROOMS: (u32, u32) = (2_048, 16_384);
/// How many words are changed by hand, each by itself.
const SPOILED: usize = 60;
/// Bands that would need more marks than there are, before growing ends.
const REFUSALS: u32 = 20;

/// What a full profile is made of.
struct Stuff {
    places: Vec<Place>,
    /// The level of every node; where it is none, levels are tossed.
    level: Option<u32>,
}

/// The seeds take one pair of plans after the other.
fn write(writer: &mut Writer, seed: u64) {
    writer.begin(ROOMS.0, ROOMS.1);
    spoil_one_by_one(writer, SPOILED, ask_check);
    for (plan, level) in PLANS[seed as usize % PLANS.len()] {
        let stuff = Stuff { places: plan(&mut writer.dice), level };
        grow(writer, &stuff);
        ask_everything(writer);
        spoil_one_by_one(writer, SPOILED, ask_check);
        lend_a_word_less_and_more(writer);
        for _ in 0..3 {
            try_the_border(writer, &stuff);
        }
        for _ in 0..15 {
            turn_over(writer, &stuff);
        }
        writer.ask_what_stands();
        ask_some_stabs(writer, 100);
    }
}

/// Inserts band by band, with the numbers in no order.
fn grow(writer: &mut Writer, stuff: &Stuff) {
    writer.begin(ROOMS.0, ROOMS.1);
    let mut numbers: Vec<u32> = (0..BANDS as u32).collect();
    writer.dice.shuffle(&mut numbers);
    let mut refused = 0;
    for (nth, (&number, &place)) in numbers.iter().zip(&stuff.places).enumerate() {
        let insert = insert_at(&mut writer.dice, stuff, number, place);
        refused += u32::from(!writer.ask(insert));
        if nth % 64 == 63 {
            writer.ask_what_stands();
            ask_some_stabs(writer, 20);
        }
        if refused == REFUSALS {
            break;
        }
    }
}

/// The insert of a band at a place.
fn insert_at(dice: &mut Dice, stuff: &Stuff, number: u32, (scope, low, high): Place) -> Command {
    let closed = Stretch::closed(low, high);
    let mut stretch = closed.with_closed(!dice.one_in(3), !dice.one_in(3));
    if !stretch.holds_a_whole_key() {
        stretch = closed;
    }
    let band = Band { number, scope, stretch };
    let (low_level, high_level) = (tossed_level(dice), tossed_level(dice));
    let level = |tossed| stuff.level.unwrap_or(tossed);
    insert(band, level(low_level), level(high_level))
}

/// Every readout of every node, band and number, and many stabs.
fn ask_everything(writer: &mut Writer) {
    writer.ask_what_stands();
    writer.ask_nodes(&writer.nodes());
    let numbers: Vec<u32> = (0..=BANDS as u32).collect();
    writer.ask_bands(&numbers);
    ask_some_stabs(writer, 500);
}

fn ask_check(writer: &mut Writer) {
    writer.ask(check());
}

/// Each slice a word shorter and a word longer.
fn lend_a_word_less_and_more(writer: &mut Writer) {
    for slice in 0..3 {
        for more in [0, 2] {
            let mut words = [8_192, 40_980, 16_384];
            words[slice] = words[slice] - 1 + more;
            writer.ask(lengths(words[0], words[1], words[2]));
            writer.ask(check());
        }
    }
    writer.ask(memory(ROOMS.0, ROOMS.1));
    writer.ask_what_stands();
}

/// Stabs at so many of the telling keys, and at the last one: the longest way.
fn ask_some_stabs(writer: &mut Writer, many: usize) {
    let mut keys: Vec<u32> = telling_keys(&writer.nodes()).into_iter().collect();
    writer.dice.shuffle(&mut keys);
    keys.truncate(many);
    keys.push(HIGHEST_KEY);
    writer.ask_stabs(keys);
}

/// A live number is refused; then one band goes and is refused again where there is no room
/// left but what is used, for nodes and for marks.
fn try_the_border(writer: &mut Writer, stuff: &Stuff) {
    let bands = writer.bands();
    let band = some_band(&mut writer.dice, &bands);
    let (number, scope) = (band.number, band.scope);
    let place = (scope, band.stretch.low, band.stretch.high);
    let insert = insert_at(&mut writer.dice, stuff, number, place);
    writer.ask(insert.clone());
    writer.ask(remove(number, scope));
    writer.ask_what_stands();
    let (nodes, marks) = writer.rooms_in_use().unwrap_or(ROOMS);
    for (nodes, marks) in [(nodes, ROOMS.1), (nodes + 1, ROOMS.1), (ROOMS.0, marks)] {
        writer.ask(memory(nodes.min(ROOMS.0), marks));
        writer.ask(check());
        if writer.ask(insert.clone()) {
            writer.ask(remove(number, scope));
        }
    }
    writer.ask(memory(ROOMS.0, ROOMS.1));
    writer.ask(insert);
    writer.ask_what_stands();
}

/// One band goes and another takes its number, at any place of the plan.
fn turn_over(writer: &mut Writer, stuff: &Stuff) {
    let bands = writer.bands();
    let band = some_band(&mut writer.dice, &bands);
    writer.ask(remove(band.number, band.scope));
    let place = writer.dice.pick(&stuff.places);
    let insert = insert_at(&mut writer.dice, stuff, band.number, place);
    writer.ask(insert);
    ask_some_stabs(writer, 10);
}
