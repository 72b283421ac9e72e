//! Scripts: the lines that a desk is given, each with what is foreseen of it.

use super::foreseen::Foreseen;

/// Lines that no command's name begins are counted under this.
pub const OTHER: &str = "?";

/// One line, without its line feed; a carriage return at its end belongs to the text.
#[derive(Clone, Debug, PartialEq, Eq)]
pub struct Line {
    /// What it is counted under: the name of a command, or `OTHER`.
    pub name: &'static str,
    /// How it is written.
    pub text: Vec<u8>,
    /// What it must be answered.
    pub foreseen: Foreseen,
}

/// Lines for a desk that is as if it were fresh.
#[derive(Clone, Debug, PartialEq, Eq)]
pub struct Script {
    /// Its kind of life.
    pub kind: &'static str,
    /// Its seed.
    pub seed: u64,
    /// The lines, in order.
    pub lines: Vec<Line>,
    /// The most bytes handed over at a time: the input comes in lumps.
    pub lump: usize,
    /// Whether the input ends in the last line, with no line feed after it.
    pub is_unended: bool,
}

impl Script {
    /// How many of its lines are answered.
    pub fn answers(&self) -> usize {
        let is_answered = |line: &&Line| line.foreseen != Foreseen::Nothing;
        self.lines.iter().filter(is_answered).count()
    }

    /// The bytes that a desk is given.
    pub fn input(&self) -> Vec<u8> {
        let mut input = Vec::new();
        for line in &self.lines {
            input.extend(&line.text);
            input.push(b'\n');
        }
        if self.is_unended {
            input.pop();
        }
        input
    }
}
