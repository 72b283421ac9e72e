//! Memory of wrong sizes: every call is refused by 1, and the words stay.

use super::ground::{telling_numbers, Ground};
use super::kind::Kind;
use super::writer::Writer;
use super::wrong_words::spoiled;
use crate::calls::band::band;
use crate::calls::edge::edge;
use crate::calls::empty::empty;
use crate::calls::lending::{lengths, memory, peek, poke};
use crate::calls::node::node;
use crate::calls::stab::stab;
use crate::desk::form::Command;
use crate::memory::words::SLICES;
use crate::paper::band::HOUSE;

/// Wrong lengths.
pub const KIND: Kind = Kind {
    name: "wrong_lengths",
    says: "slices a word too short or too long, rooms out of range: all is refused, nothing lost",
    seeds: 50,
    write,
};

const BANDS: u32 = 8_192;

fn write(writer: &mut Writer, _: u64) {
    let step = 1 + writer.dice.below(1_000);
    let ground = Ground {
        ends: (0..8).map(|nth| nth * step).collect(),
        scopes: vec![0, HOUSE],
        numbers: telling_numbers(&mut writer.dice, 8),
        one_key_or_all: false,
    };
    let nodes = 4 + writer.dice.below(12);
    let marks = 20 + writer.dice.below(60);
    writer.begin(nodes, marks);
    let mut wrongs = wrong_ones(nodes, marks);
    wrongs.extend(beyond_what_there_is(nodes, marks));
    writer.dice.shuffle(&mut wrongs);
    for wrong in wrongs {
        let change = writer.drawn(&ground);
        writer.ask(change);
        writer.ask(wrong);
        ask_every_call(writer, &ground);
        // The right lengths again, told in one way or the other.
        let back = match writer.dice.one_in(2) {
            true => memory(nodes, marks),
            false => lengths(BANDS, 20 * (nodes + 1), marks),
        };
        writer.ask(back);
        writer.ask_what_stands();
        if writer.dice.one_in(8) {
            writer.ask_all(&ground.numbers);
        }
    }
}

/// Lengths and rooms of wrong sizes that the desk has words for.
pub fn wrong_ones(nodes: u32, marks: u32) -> Vec<Command> {
    let right = 20 * (nodes + 1);
    let bands = [0, 1, 8, 8_184, 8_191, 8_193, 8_200];
    let low = [0, 1, 19, 20, 21, 39, 41, 59];
    let near = [right - 1, right + 1, right + 19];
    let high = [40_979, 40_981, 41_000, 41_020];
    let mark_words = [0, 16_385, 16_400];
    let mut wrong = vec![
        lengths(0, 0, 0),
        lengths(8_200, 41_020, 16_400),
        lengths(8_191, right + 1, 0),
        lengths(right, BANDS, marks),
        memory(0, 0),
        memory(2_050, 16_400),
        memory(2_049, 16_385),
    ];
    wrong.extend(bands.map(|bands| lengths(bands, right, marks)));
    let node_words = low.into_iter().chain(near).chain(high);
    wrong.extend(node_words.map(|nodes| lengths(BANDS, nodes, marks)));
    wrong.extend(mark_words.map(|marks| lengths(BANDS, right, marks)));
    wrong.extend([0, 2_049, 2_050].map(|nodes| memory(nodes, marks)));
    wrong.extend(mark_words.map(|marks| memory(nodes, marks)));
    wrong
}

/// Lengths and rooms that the desk has no words for: what was lent before stays lent. Twenty
/// times one more than some of these is small again in 32 bits.
fn beyond_what_there_is(nodes: u32, marks: u32) -> Vec<Command> {
    let right = 20 * (nodes + 1);
    let high = [1 << 16, 1 << 31, u32::MAX];
    let mut beyond = vec![
        lengths(BANDS, 41_021, marks),
        lengths(BANDS, right, 16_401),
        lengths(8_201, 41_021, 16_401),
        lengths(u32::MAX, u32::MAX, u32::MAX),
        memory(2_051, 16_401),
    ];
    let rooms = [2_051, 214_748_364, 429_496_729].into_iter().chain(high);
    beyond.extend(rooms.map(|nodes| memory(nodes, marks)));
    let rooms = [16_401].into_iter().chain(high);
    beyond.extend(rooms.map(|marks| memory(nodes, marks)));
    let words = [8_201].into_iter().chain(high);
    beyond.extend(words.map(|bands| lengths(bands, right, marks)));
    beyond
}

/// Every call once, rightly asked and wrongly, and the desk's own commands.
fn ask_every_call(writer: &mut Writer, ground: &Ground) {
    writer.ask_what_stands();
    if !writer.is_sound() {
        let (bands, dice) = (writer.bands(), &mut writer.dice);
        for call in [ground.insert(dice, &bands), ground.remove(dice, &bands)] {
            writer.ask(call.clone());
            let wrong = spoiled(&mut writer.dice, call);
            writer.ask(wrong);
        }
        writer.ask(empty());
    }
    let key = writer.dice.pick(&ground.ends);
    let number = writer.dice.pick(&ground.numbers);
    for command in [stab(key), node(key), edge(key, 0), band(number)] {
        writer.ask(command);
    }
    if writer.dice.one_in(4) {
        writer.ask_beyond();
    }
    // The last lent word of each slice is there, and the next is not.
    for slice in SLICES {
        let length = writer.desk.lending().slice(slice).len() as u32;
        for index in [length.saturating_sub(1), length, length + 1, u32::MAX] {
            writer.ask(peek(slice, index));
        }
        writer.ask(poke(slice, length, 7));
    }
    writer.ask_sum();
}
