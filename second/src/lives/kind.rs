//! A kind of life: scripts made from seeds, for something that could go wrong.

use super::writer::Writer;
use crate::desk::script::Script;

/// A kind of life.
pub struct Kind {
    /// Its name on the command line.
    pub name: &'static str,
    /// What it is for, in one line.
    pub says: &'static str,
    /// How many seeds of it one round takes.
    pub seeds: u64,
    /// Writes the life of a seed: always the same lines.
    pub write: fn(&mut Writer, u64),
}

impl Kind {
    /// The script of a seed.
    pub fn script(&self, seed: u64) -> Script {
        let mut writer = Writer::new(self.name, seed);
        (self.write)(&mut writer, seed);
        writer.script()
    }
}
