//! Forms of commands, and commands: a form with its words ("Words of a line" and "Commands" in
//! `docs/DESK.md`).

use super::foreseen::Foreseen;
use super::foreseer::Foreseer;
use crate::memory::words::Slice;
use crate::paper::band::{Band, Stretch};

/// What a command takes in one place.
#[derive(Clone, Copy, Debug, PartialEq, Eq)]
pub enum Sort {
    /// Any number.
    Number,
    /// A band's number.
    BandNumber,
    /// A scope.
    Scope,
    /// A node's level.
    Level,
    /// A lane.
    Lane,
    /// A place on the wheel.
    Place,
    /// A key, as a number or by machine, sensor and reading.
    Key,
    /// A stretch.
    Stretch,
    /// The name of a slice.
    Slice,
}

/// A word after a command's name. Numbers may be any: the desk hands them on.
#[derive(Clone, Copy, Debug, PartialEq, Eq)]
pub enum Word {
    /// A number, whatever it is of.
    Number(u32),
    /// A key.
    Key(u32),
    /// A stretch.
    Stretch(Stretch),
    /// A slice.
    Slice(Slice),
}

/// What a command may change.
#[derive(Clone, Copy, Debug, PartialEq, Eq)]
pub enum Changes {
    /// Nothing: it only asks.
    Nothing,
    /// What the desk keeps or lends.
    Desk,
    /// The profile: it is a call of the box.
    Profile,
}

/// A form of commands.
pub struct Form {
    /// The word that its lines begin with, or the two.
    pub name: &'static str,
    /// What it takes after its name.
    pub takes: &'static [Sort],
    /// What it may change.
    pub changes: Changes,
    /// What is foreseen of it by the state, which is then the one after it.
    pub foresee: fn(&mut Foreseer, &[Word]) -> Foreseen,
    /// Everything that a whole run must have seen it answer, but for wrong words.
    pub answers: &'static [&'static str],
}

/// A command with its words, which are as its form takes them.
#[derive(Clone)]
pub struct Command {
    /// Its form.
    pub form: &'static Form,
    /// The words after its name.
    pub words: Vec<Word>,
}

impl Form {
    /// The command of these words.
    pub fn with(&'static self, words: impl IntoIterator<Item = Word>) -> Command {
        let words = words.into_iter().collect();
        Command { form: self, words }
    }
}

impl Command {
    /// What the command is answered. The state is then the one after it.
    pub fn foresee(&self, desk: &mut Foreseer) -> Foreseen {
        (self.form.foresee)(desk, &self.words)
    }
}

impl Word {
    /// Number, scope and stretch of a band.
    pub fn of_band(band: Band) -> [Word; 3] {
        let (number, scope) = (Word::Number(band.number), Word::Number(band.scope));
        [number, scope, Word::Stretch(band.stretch)]
    }
}

/// The numbers and keys among the words, in order.
pub fn numbers<const MANY: usize>(words: &[Word]) -> [u32; MANY] {
    let mut numbers = words.iter().filter_map(|word| match *word {
        Word::Number(number) | Word::Key(number) => Some(number),
        Word::Stretch(_) | Word::Slice(_) => None,
    });
    std::array::from_fn(|_| numbers.next().expect("as many as the form takes"))
}

/// The band of three words as `of_band` gives them.
pub fn band(words: &[Word]) -> Band {
    let [number, scope] = numbers(words);
    let stretch = words.iter().find_map(|word| match *word {
        Word::Stretch(stretch) => Some(stretch),
        _ => None,
    });
    Band { number, scope, stretch: stretch.expect("a stretch") }
}
