//! Reading a line as the desk must ("Lines", "Words of a line" and "What is wrong with a line"
//! in `docs/DESK.md`).

use super::FORMS;
use crate::desk::foreseen::Foreseen;
use crate::desk::foreseer::Foreseer;
use crate::desk::form::{Command, Form, Sort, Word};
use crate::desk::script::{Line, OTHER};
use crate::desk::spelling::LONGEST_LINE;
use crate::memory::words::Slice;
use crate::paper::band::Stretch;
use crate::paper::hall::{KEYS_PER_MACHINE, KEYS_PER_SENSOR};

/// The answer to more bytes than a line may have, whatever they are.
pub const LINE_TOO_LONG: &str = "? line too long";
/// The answer to words that begin no command.
pub const NO_SUCH_COMMAND: &str = "? no such command";
/// The answer where a command takes a word more.
pub const WORD_MISSING: &str = "? word missing";
/// The answer where a word is left over.
pub const TOO_MANY_WORDS: &str = "? too many words";
const NOT_A_NUMBER: &str = "? not a number";
const TOO_HIGH: &str = "? number above 4294967295";
const NOT_A_SLICE: &str = "? not a slice";
const NOT_A_KEY: &str = "? not a key";
const NO_SUCH_KEY: &str = "? no such key";
const NOT_A_STRETCH: &str = "? not a stretch";

/// What is wrong with a line.
type Wrong = &'static str;

/// What a line is.
pub enum Read {
    /// Blank, or a remark.
    Unanswered,
    /// A command.
    Command(Command),
    /// No command: what it is counted under, and what is wrong.
    Wrong(&'static str, Wrong),
}

/// The line of this text for a desk, whose state is then the one after it.
pub fn line(text: Vec<u8>, desk: &mut Foreseer) -> Line {
    let (name, foreseen) = match read(&text) {
        Read::Unanswered => (OTHER, Foreseen::Nothing),
        Read::Command(command) => (command.form.name, command.foresee(desk)),
        Read::Wrong(name, answer) => (name, Foreseen::whole(answer)),
    };
    Line { name, text, foreseen }
}

/// Reads a line, without its line feed.
pub fn read(text: &[u8]) -> Read {
    let text = text.strip_suffix(b"\r").unwrap_or(text);
    let words = text.split(|byte| b" \t".contains(byte));
    let words: Vec<&[u8]> = words.filter(|word| !word.is_empty()).collect();
    if text.len() > LONGEST_LINE {
        return Read::Wrong(OTHER, LINE_TOO_LONG);
    }
    if words.first().is_none_or(|word| word.starts_with(b"#")) {
        return Read::Unanswered;
    }
    let (form, given) = match form_of(&words) {
        Ok(found) => found,
        Err(wrong) => return Read::Wrong(OTHER, wrong),
    };
    match words_of(form, given) {
        Ok(words) => Read::Command(form.with(words)),
        Err(wrong) => Read::Wrong(form.name, wrong),
    }
}

/// The form whose name stands first, and the words after it.
fn form_of<'a, 'b>(words: &'a [&'b [u8]]) -> Result<(&'static Form, &'a [&'b [u8]]), Wrong> {
    let begun =
        |form: &Form| form.name.split(' ').zip(words).all(|(name, &word)| name.as_bytes() == word);
    let form = FORMS.iter().find(|form| begun(form)).ok_or(NO_SUCH_COMMAND)?;
    match words.get(form.name.split(' ').count()..) {
        Some(given) => Ok((form, given)),
        None => Err(WORD_MISSING),
    }
}

/// The words as the form takes them, or the first that is missing, wrong or too many.
fn words_of(form: &Form, given: &[&[u8]]) -> Result<Vec<Word>, Wrong> {
    let mut words = Vec::new();
    for (nth, &sort) in form.takes.iter().enumerate() {
        words.push(word_of(sort, given.get(nth).ok_or(WORD_MISSING)?)?);
    }
    if given.len() > words.len() {
        return Err(TOO_MANY_WORDS);
    }
    Ok(words)
}

fn word_of(sort: Sort, word: &[u8]) -> Result<Word, Wrong> {
    match sort {
        Sort::Key => key(word).map(Word::Key),
        Sort::Stretch => stretch(word).map(Word::Stretch),
        Sort::Slice => match word {
            b"bands" => Ok(Word::Slice(Slice::Bands)),
            b"nodes" => Ok(Word::Slice(Slice::Nodes)),
            b"marks" => Ok(Word::Slice(Slice::Marks)),
            _ => Err(NOT_A_SLICE),
        },
        Sort::Number | Sort::BandNumber | Sort::Scope | Sort::Level | Sort::Lane | Sort::Place => {
            number(word).map(Word::Number)
        }
    }
}

/// Everything that can be wrong with a word of this sort.
pub fn wrongs_of(sort: Sort) -> &'static [Wrong] {
    match sort {
        Sort::Key => &[NOT_A_KEY, NO_SUCH_KEY, TOO_HIGH],
        Sort::Stretch => &[NOT_A_STRETCH, NOT_A_KEY, NO_SUCH_KEY, TOO_HIGH],
        Sort::Slice => &[NOT_A_SLICE],
        Sort::Number | Sort::BandNumber | Sort::Scope | Sort::Level | Sort::Lane | Sort::Place => {
            &[NOT_A_NUMBER, TOO_HIGH]
        }
    }
}

fn are_digits(word: &[u8]) -> bool {
    !word.is_empty() && word.iter().all(u8::is_ascii_digit)
}

fn number(word: &[u8]) -> Result<u32, Wrong> {
    if !are_digits(word) {
        return Err(NOT_A_NUMBER);
    }
    let digit = |value: u64, byte: &u8| value * 10 + u64::from(byte - b'0');
    let too_high = |value: u64| value > u64::from(u32::MAX);
    word.iter()
        .try_fold(0, |value, byte| Some(digit(value, byte)).filter(|&value| !too_high(value)))
        .map(|value| value as u32)
        .ok_or(TOO_HIGH)
}

/// A number, or machine, sensor and reading: three words of digits, each in its range.
fn key(word: &[u8]) -> Result<u32, Wrong> {
    let parts: Vec<&[u8]> = word.split(|&byte| byte == b':').collect();
    let are_numbers = parts.iter().all(|part| are_digits(part));
    match parts[..] {
        [word] if are_numbers => number(word),
        [machine, sensor, reading] if are_numbers => {
            let part = |word, most| number(word).ok().filter(|&part| part <= most);
            match (part(machine, 63), part(sensor, 31), part(reading, 1_023)) {
                (Some(machine), Some(sensor), Some(reading)) => {
                    Ok(machine * KEYS_PER_MACHINE + sensor * KEYS_PER_SENSOR + reading)
                }
                _ => Err(NO_SUCH_KEY),
            }
        }
        _ => Err(NOT_A_KEY),
    }
}

/// Brackets and a comma come first; then what stands before the first comma, and what after.
fn stretch(word: &[u8]) -> Result<Stretch, Wrong> {
    let [opening @ (b'[' | b'('), inside @ .., closing @ (b']' | b')')] = word else {
        return Err(NOT_A_STRETCH);
    };
    let comma = inside.iter().position(|&byte| byte == b',');
    let comma = comma.ok_or(NOT_A_STRETCH)?;
    let (low, high) = (key(&inside[..comma])?, key(&inside[comma + 1..])?);
    Ok(Stretch::closed(low, high).with_closed(*opening == b'[', *closing == b']'))
}
