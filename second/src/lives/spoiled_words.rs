//! Sound memory with words changed by hand: what the check says, and that all is still
//! answered and nothing changed.

use super::ground::{telling_numbers, Ground};
use super::kind::Kind;
use super::spoiled_bands::SPOILS;
use super::spoiling::{
    all_spots, another_word, neighbours, poke_at, spoil_one_by_one, telling_words, word_at, Spot,
};
use super::unsound::broken;
use super::writer::Writer;
use crate::calls::band::band;
use crate::calls::check::check;
use crate::calls::edge::edge;
use crate::calls::empty::empty;
use crate::calls::lending::{fill, memory};
use crate::calls::node::node;
use crate::calls::stab::stab;
use crate::desk::foreseer::Foreseer;
use crate::memory::words::{laid, Slice, Words};
use crate::paper::band::HOUSE;

/// Spoiled words.
pub const KIND: Kind = Kind {
    name: "spoiled_words",
    says: "words of every sort poked and put back, band words alone, broken rules, other profiles, junk",
    seeds: 80,
    write,
};

/// How many words are changed, each by itself.
const SPOILED: usize = 120;
const ROOMS: (u32, u32) = (10, 60);

fn write(writer: &mut Writer, _: u64) {
    let step = 1 + writer.dice.below(30);
    let ground = Ground {
        ends: (0..7).map(|nth| nth * step).collect(),
        scopes: vec![0, HOUSE],
        numbers: telling_numbers(&mut writer.dice, 6),
        one_key_or_all: false,
    };
    writer.begin(ROOMS.0, ROOMS.1);
    live(writer, &ground, 14);
    while writer.bands().len() < 3 {
        let insert = writer.drawn_insert(&ground);
        writer.ask(insert);
    }
    spoil_words(writer, &ground);
    spoil_several(writer, &ground);
    swap_words(writer, &ground);
    spoil_bands(writer, &ground);
    poke_in_unsound(writer, &ground);
    poke_in_another(writer, &ground);
    fill_with_junk(writer, &ground);
}

fn live(writer: &mut Writer, ground: &Ground, changes: u32) {
    for _ in 0..changes {
        let change = writer.drawn(ground);
        writer.ask(change);
    }
    writer.ask_what_stands();
    writer.ask_all(&ground.numbers);
}

/// Pokes one word after the other and puts each back.
fn spoil_words(writer: &mut Writer, ground: &Ground) {
    spoil_one_by_one(writer, SPOILED, |writer| ask_of_spoiled(writer, ground, 3));
    writer.ask_all(&ground.numbers);
}

/// Several words at once, so that links and fences lead anywhere and round in circles.
fn spoil_several(writer: &mut Writer, ground: &Ground) {
    let words = writer.words();
    for _ in 0..8 {
        let mut spots = telling_words(&words, &mut writer.dice);
        writer.dice.shuffle(&mut spots);
        spots.truncate(2 + writer.dice.below(12) as usize);
        for spot in spots {
            let word = another_word(&words, spot, &mut writer.dice);
            poke_at(writer, spot, word);
        }
        ask_of_spoiled(writer, ground, 7);
        poke_all(writer, &words);
        writer.ask_what_stands();
    }
}

/// Two words next to each other change places: the same marks stand there in another order,
/// or at another place.
fn swap_words(writer: &mut Writer, ground: &Ground) {
    let words = writer.words();
    let mut pairs = neighbours(&words, &mut writer.dice);
    writer.dice.shuffle(&mut pairs);
    // Marks first: nothing else shows that their order is checked.
    pairs.sort_by_key(|&((slice, _), _)| slice != Slice::Marks);
    pairs.truncate(20);
    for (one, other) in pairs {
        poke_at(writer, one, word_at(&words, other));
        poke_at(writer, other, word_at(&words, one));
        ask_of_spoiled(writer, ground, 2);
        poke_all(writer, &words);
        writer.ask(check());
    }
}

/// Band words alone are others. What is marked is what stands there, so the stabs and the
/// readouts that show it are the same as before.
fn spoil_bands(writer: &mut Writer, ground: &Ground) {
    let (words, nodes) = (writer.words(), writer.nodes());
    for spoil in SPOILS {
        let mut to = words.clone();
        spoil(&mut writer.dice, to.of_mut(Slice::Bands));
        poke_all(writer, &to);
        ask_of_spoiled(writer, ground, 1);
        writer.ask_marks(&nodes);
        poke_all(writer, &words);
        writer.ask(check());
    }
}

/// What is asked of memory that may be spoiled: the check, changes that must be refused by 1
/// where it says no, and so many stabs and readouts of each kind.
fn ask_of_spoiled(writer: &mut Writer, ground: &Ground, many: u32) {
    writer.ask_what_stands();
    for _ in 0..many {
        let dice = &mut writer.dice;
        let (beside, key) = (dice.below(2), dice.pick(&ground.ends));
        let (lane, number) = (dice.below(9), dice.pick(&ground.numbers));
        for command in [stab(key + beside), node(key), edge(key, lane), band(number)] {
            writer.ask(command);
        }
    }
    if !writer.is_sound() {
        for _ in 0..2 {
            let change = writer.drawn(ground);
            writer.ask(change);
        }
    }
    if writer.dice.one_in(6) {
        writer.ask_beyond();
    }
}

/// The words of the standing profile with a rule broken in it, poked in and put back.
fn poke_in_unsound(writer: &mut Writer, ground: &Ground) {
    let words = writer.words();
    let standing = writer.desk.profile().cloned();
    let Some(standing) = standing else {
        return;
    };
    for broken in broken(&mut writer.dice, &standing) {
        for to in [&laid(&broken), &words] {
            poke_all(writer, to);
            ask_of_spoiled(writer, ground, 2);
        }
    }
}

/// The words of another sound memory of the same rooms, poked in one by one in any order: what
/// stands at the end is that other profile. It comes from a life that no desk was told of.
fn poke_in_another(writer: &mut Writer, ground: &Ground) {
    let mut other = Foreseer::new();
    for command in [memory(ROOMS.0, ROOMS.1), empty()] {
        command.foresee(&mut other);
    }
    for _ in 0..8 {
        let bands = other.profile().map(|profile| profile.bands.clone());
        let insert = ground.insert(&mut writer.dice, &bands.unwrap_or_default());
        insert.foresee(&mut other);
    }
    let to = other.lending().words();
    for spot in differing_spots(writer, &to) {
        poke_at(writer, spot, word_at(&to, spot));
        if writer.dice.one_in(12) {
            ask_of_spoiled(writer, ground, 1);
        }
    }
    writer.ask_what_stands();
    writer.ask_all(&ground.numbers);
    live(writer, ground, 6);
}

/// Every word the same junk, and an empty profile made of it.
fn fill_with_junk(writer: &mut Writer, ground: &Ground) {
    let any = writer.dice.roll() as u32;
    for word in [0, 1, 8, 20, any, u32::MAX] {
        writer.ask(fill(word));
        ask_of_spoiled(writer, ground, 2);
        writer.ask_beyond();
        writer.ask(empty());
        writer.ask_what_stands();
        live(writer, ground, 2);
    }
}

/// Pokes until the lent words are these.
fn poke_all(writer: &mut Writer, to: &Words) {
    for spot in differing_spots(writer, to) {
        poke_at(writer, spot, word_at(to, spot));
    }
}

/// Where the lent words differ from these, in any order.
fn differing_spots(writer: &mut Writer, to: &Words) -> Vec<Spot> {
    let from = writer.words();
    let differs = |&spot: &Spot| word_at(&from, spot) != word_at(to, spot);
    let mut spots: Vec<Spot> = all_spots(to).filter(differs).collect();
    writer.dice.shuffle(&mut spots);
    spots
}
