//! The bench card: records that are right, and bad ones at every place, scanned as the card
//! grows; and the lent memory beside it, which neither may see of the other.

use super::few_keys;
use super::ground::{telling_numbers, Ground};
use super::kind::Kind;
use super::many_machines;
use super::writer::Writer;
use super::wrong_words::{spoiled, HIGH_KEYS};
use crate::calls::card::{card_add, card_clear, card_scan, MOST_RECORDS};
use crate::calls::empty::empty;
use crate::calls::lending::{fill, lengths, memory, poke};
use crate::desk::form::{band, Command};
use crate::dice::Dice;
use crate::memory::words::SLICES;
use crate::paper::band::{Band, Bands, HIGHEST_NUMBER};
use crate::paper::hall::HIGHEST_KEY;
use std::collections::BTreeMap;

/// The bench card.
pub const KIND: Kind = Kind {
    name: "bench_card",
    says: "cards of 1 to 1,100 records, each refusal at every place, numbers that stand twice",
    seeds: 40,
    write,
};

/// Cards place by place: `.` is a right record, `!` a bad one; the same letter is the same
/// number, a capital one stands on a record that is bad by itself as well.
const CARDS: &str = "! !. .! .!. ..!.. .!.! !! ...... \
                     aa aa. .aa .aa. a.a a.a. .a.a. aaa a.a.a aabb abab. abba. .ab.ba \
                     !.a.a a!.a a.!a a.a! aA. .a.A.a A.a ab.B.a aA A";
/// How often each of them is written, and how many are all mixed up.
const TIMES: u32 = 3;
const MIXED: u32 = 8;
/// How many numbers there are, and so many more records than the desk has places for.
const NUMBERS: usize = HIGHEST_NUMBER as usize + 1;
const TOO_MANY: usize = MOST_RECORDS + 4;

/// A life about cards in the making.
struct Bench<'a> {
    writer: &'a mut Writer,
    ground: Ground,
    /// The numbers that no record of this card has yet.
    unused: Vec<u32>,
    /// The numbers that letters stand for on this card.
    named: BTreeMap<u8, u32>,
}

fn write(writer: &mut Writer, seed: u64) {
    let mut cards: Vec<Vec<u8>> = Vec::new();
    for _ in 0..TIMES {
        cards.extend(CARDS.split_whitespace().map(|card| card.as_bytes().to_vec()));
    }
    for _ in 0..MIXED {
        let length = 1 + writer.dice.below(50);
        let letters = b"...............wxyzWX!";
        cards.push((0..length).map(|_| writer.dice.pick(letters)).collect());
    }
    cards.push(long_card(&mut writer.dice, seed));
    writer.dice.shuffle(&mut cards);
    // Few keys, so that many records hold one, or keys of many machines.
    let ground = match writer.dice.one_in(2) {
        true => few_keys::ground(&mut writer.dice),
        false => many_machines::ground(&mut writer.dice),
    };
    writer.ask(card_scan(HIGHEST_KEY));
    writer.ask(card_scan(HIGHEST_KEY + 1));
    writer.begin(20, 100);
    let mut bench = Bench { writer, ground, unused: Vec::new(), named: BTreeMap::new() };
    for card in cards {
        bench.write_card(&card);
    }
    writer.ask_what_stands();
}

/// The long card of a life; the seeds take one way after the other.
fn long_card(dice: &mut Dice, seed: u64) -> Vec<u8> {
    let many = 100 + dice.below(900) as usize;
    let mut card = vec![b'.'; TOO_MANY];
    match seed % 5 {
        // Every number once, and then none is left.
        0 => {}
        1 => card[0] = b'!',
        2 => card[many] = b'!',
        3 => {
            // The first number stands again after many others, or as the last there can be.
            let again = dice.pick(&[many, NUMBERS]);
            card.truncate(again + 1);
            (card[0], card[again]) = (b'a', b'a');
        }
        _ => {
            card.truncate(NUMBERS + 1);
            card[NUMBERS] = b'!';
        }
    }
    card
}

impl Bench<'_> {
    /// Writes a card from its first place on and scans it as it grows; `.` is at times a few
    /// records.
    fn write_card(&mut self, card: &[u8]) {
        self.begin();
        let seldom = if card.len() > 100 { 24 } else { 3 };
        for &letter in card {
            let is_short = card.len() < 10 && letter == b'.';
            let times = if is_short { self.a_few() } else { 1 };
            for _ in 0..times {
                let record = self.record(letter);
                self.writer.ask(card_add(record));
                let is_telling = letter != b'.' || is_telling_length(self.records().len());
                if is_telling || self.writer.dice.one_in(seldom) {
                    self.scan_on_the_line();
                }
                if self.writer.dice.one_in(12) {
                    self.turn_to_the_memory();
                }
            }
        }
        self.scan_to_the_end();
    }

    /// Another card: the last one goes, or is gone already.
    fn begin(&mut self) {
        let key = self.telling_key();
        if !self.records().is_empty() || self.writer.dice.one_in(2) {
            self.writer.ask(card_clear());
        }
        if self.writer.dice.one_in(4) {
            self.writer.ask(card_scan(key));
        }
        self.named.clear();
        // Every number once; for every other card telling ones come first.
        self.unused = (0..=HIGHEST_NUMBER).collect();
        let dice = &mut self.writer.dice;
        dice.shuffle(&mut self.unused);
        if dice.one_in(2) {
            let telling = telling_numbers(dice, 12);
            self.unused.retain(|number| !telling.contains(number));
            self.unused.extend(telling);
        }
    }

    fn records(&self) -> &[Band] {
        &self.writer.desk.card
    }

    /// Mostly one to five, and seldom many.
    fn a_few(&mut self) -> u32 {
        let most = if self.writer.dice.one_in(12) { 60 } else { 5 };
        1 + self.writer.dice.below(most)
    }

    /// The record that a letter stands for.
    fn record(&mut self, letter: u8) -> Band {
        let name = letter.to_ascii_lowercase();
        let known = self.named.get(&name).copied();
        // Where every number is on the card, any at all stands twice.
        let own = known.or_else(|| self.unused.pop());
        let number = own.unwrap_or_else(|| self.writer.dice.below(HIGHEST_NUMBER + 1));
        if name.is_ascii_lowercase() {
            self.named.insert(name, number);
        }
        let dice = &mut self.writer.dice;
        let mut record = self.ground.band(dice, &Bands::new());
        record.number = number;
        if !record.stretch.holds_a_whole_key() {
            record.stretch = record.stretch.with_closed(true, true);
        }
        if letter == b'!' || letter.is_ascii_uppercase() {
            record = bad(dice, record);
        }
        record
    }

    /// A scan whose key is right, so that the records are judged.
    fn scan_on_the_line(&mut self) {
        let key = self.telling_key().min(HIGHEST_KEY);
        self.writer.ask(card_scan(key));
    }

    /// Scans of a finished card, past the end of the line too: that is told before all that is
    /// bad on the card. What is wrong with a line is told before the card's being full.
    fn scan_to_the_end(&mut self) {
        if self.records().len() == MOST_RECORDS {
            for line in ["card add 1 64", "card add 1 64 [1,2", "card add 1 64 [1,2] 1 1"] {
                self.writer.write(line);
            }
        }
        for _ in 0..4 {
            self.scan_on_the_line();
        }
        let past = self.writer.dice.pick(&HIGH_KEYS);
        let telling = self.telling_key();
        for key in [past, telling, 0, HIGHEST_KEY] {
            self.writer.ask(card_scan(key));
        }
    }

    /// Mostly a key at or beside an end of a record, right or wrong, and else any.
    fn telling_key(&mut self) -> u32 {
        let Writer { dice, desk, .. } = &mut *self.writer;
        if desk.card.is_empty() || dice.one_in(12) {
            return dice.below(HIGHEST_KEY + 1);
        }
        let stretch = dice.pick(&desk.card).stretch;
        let end = dice.pick(&[stretch.low, stretch.high]);
        dice.pick(&[end.saturating_sub(1), end, end, end.saturating_add(1)])
    }

    /// Something is done with the lent memory, which must not be seen on the card, as the card
    /// must not be seen in its words.
    fn turn_to_the_memory(&mut self) {
        self.writer.ask_sum();
        if self.writer.dice.one_in(3) {
            let change = change_of_memory(&mut self.writer.dice);
            self.writer.ask(change);
            self.writer.ask_what_stands();
        } else {
            self.writer.live_on(&self.ground);
        }
        self.scan_on_the_line();
    }
}

/// The record with something wrong in it.
fn bad(dice: &mut Dice, record: Band) -> Band {
    loop {
        let spoiled = band(&spoiled(dice, card_add(record)).words);
        if spoiled.judge().is_err() {
            return spoiled;
        }
    }
}

/// Whether a card of so many records lies at the end of something: of a word, of a byte, of
/// the numbers there are, of the places there are.
fn is_telling_length(records: usize) -> bool {
    let near = |end: usize| records.abs_diff(end) <= 1;
    [64, 256, NUMBERS, MOST_RECORDS].into_iter().any(near)
}

/// What the desk can do to words without a call, and the call that takes any words.
fn change_of_memory(dice: &mut Dice) -> Command {
    match dice.below(5) {
        0 => fill(dice.pick(&[0, 1, u32::MAX])),
        1 => memory(dice.below(30), dice.below(120)),
        2 => lengths(dice.below(8_200), dice.below(500), dice.below(120)),
        3 => poke(dice.pick(&SLICES), dice.below(100), dice.below(9)),
        _ => empty(),
    }
}
