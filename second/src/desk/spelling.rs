//! How a command is written as a line ("Lines" and "Words of a line" in `docs/DESK.md`): in
//! one plain way and in many varied ones, which the desk must all read alike.

use super::form::{Command, Word};
use crate::dice::Dice;
use crate::memory::words::Slice;
use crate::paper::band::Stretch;
use crate::paper::hall::{HIGHEST_KEY, KEYS_PER_MACHINE, KEYS_PER_SENSOR};

/// The most bytes of a line that the desk reads.
pub const LONGEST_LINE: usize = 200;

/// The plainest writing: no needless zero, one blank between words.
pub fn plain(command: &Command) -> Vec<u8> {
    let mut line = command.form.name.to_string();
    for word in &command.words {
        line.push(' ');
        line += &plain_word(word);
    }
    line.into_bytes()
}

fn plain_word(word: &Word) -> String {
    match word {
        Word::Number(number) | Word::Key(number) => number.to_string(),
        Word::Stretch(stretch) => stretch.to_string(),
        Word::Slice(Slice::Bands) => "bands".to_string(),
        Word::Slice(Slice::Nodes) => "nodes".to_string(),
        Word::Slice(Slice::Marks) => "marks".to_string(),
    }
}

/// Another writing, as the dice have it. One that is too long for a line, which is seldom,
/// is thrown again; at times one is made just as long as may be.
pub fn varied(command: &Command, dice: &mut Dice) -> Vec<u8> {
    let mut line = varied_line(command, dice);
    while line.len() > LONGEST_LINE {
        line = varied_line(command, dice);
    }
    if dice.one_in(12) {
        let blanks = " ".repeat(LONGEST_LINE - line.len());
        line = if dice.one_in(2) { blanks + &line } else { line + &blanks };
    }
    if dice.one_in(4) {
        line.push('\r');
    }
    line.into_bytes()
}

/// Words with any gaps between, and at times blanks at both ends of the line.
fn varied_line(command: &Command, dice: &mut Dice) -> String {
    let mut line = String::new();
    let names = command.form.name.split(' ').map(str::to_string);
    let mut words: Vec<String> = names.collect();
    words.extend(command.words.iter().map(|word| varied_word(word, dice)));
    for (nth, word) in words.iter().enumerate() {
        if nth > 0 || dice.one_in(4) {
            line += &varied_gap(dice);
        }
        line += word;
    }
    if dice.one_in(4) {
        line += &varied_gap(dice);
    }
    line
}

fn varied_word(word: &Word, dice: &mut Dice) -> String {
    match *word {
        Word::Number(number) => varied_number(number, dice),
        Word::Key(key) => varied_key(key, dice),
        Word::Stretch(stretch) => varied_stretch(&stretch, dice),
        Word::Slice(_) => plain_word(word),
    }
}

/// The number behind mostly no needless zero, at times a few, and seldom many.
fn varied_number(number: u32, dice: &mut Dice) -> String {
    let zeros = match dice.below(20) {
        0 => dice.below(160),
        1..=5 => 1 + dice.below(3),
        _ => 0,
    };
    format!("{}{number}", "0".repeat(zeros as usize))
}

/// A key on the line is at times written by machine, sensor and reading.
fn varied_key(key: u32, dice: &mut Dice) -> String {
    if key > HIGHEST_KEY || dice.one_in(2) {
        return varied_number(key, dice);
    }
    let machine = varied_number(key / KEYS_PER_MACHINE, dice);
    let sensor = varied_number(key % KEYS_PER_MACHINE / KEYS_PER_SENSOR, dice);
    let reading = varied_number(key % KEYS_PER_SENSOR, dice);
    format!("{machine}:{sensor}:{reading}")
}

fn varied_stretch(stretch: &Stretch, dice: &mut Dice) -> String {
    let plain = stretch.to_string();
    let (low, high) = (varied_key(stretch.low, dice), varied_key(stretch.high, dice));
    format!("{}{low},{high}{}", &plain[..1], &plain[plain.len() - 1..])
}

/// Mostly one blank, else some blanks and tabs.
fn varied_gap(dice: &mut Dice) -> String {
    let length = if dice.one_in(3) { 1 + dice.below(5) } else { 1 };
    (0..length).map(|_| dice.pick(&[' ', ' ', ' ', '\t'])).collect()
}
