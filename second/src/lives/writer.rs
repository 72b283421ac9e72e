//! Writing a script line by line, foreseeing as it goes, and what is asked again and again:
//! the sum of the words, and every readout there is.

use super::ground::Ground;
use super::telling::{beside, telling_keys};
use crate::calls::band::band;
use crate::calls::check::check;
use crate::calls::edge::edge;
use crate::calls::empty::empty;
use crate::calls::lending::{memory, sum};
use crate::calls::node::node;
use crate::calls::reading;
use crate::calls::room::room;
use crate::calls::stab::stab;
use crate::desk::foreseer::Foreseer;
use crate::desk::form::{Changes, Command};
use crate::desk::script::{Line, Script};
use crate::desk::spelling::{plain, varied};
use crate::dice::Dice;
use crate::memory::words::Words;
use crate::paper::band::{Bands, HIGHEST_NUMBER};
use crate::paper::hall::HIGHEST_KEY;
use crate::paper::lanes::{Nodes, LANES};
use std::collections::BTreeSet;

/// A script in the making, with the state that a desk is in after its lines.
pub struct Writer {
    /// The dice of this script.
    pub dice: Dice,
    /// The script so far.
    pub made: Script,
    /// The state after it.
    pub desk: Foreseer,
}

impl Writer {
    /// A script of this kind and seed for a fresh desk, with no line yet.
    pub fn new(kind: &'static str, seed: u64) -> Writer {
        let mut dice = Dice::of(kind, seed);
        Writer {
            made: Script {
                kind,
                seed,
                lines: Vec::new(),
                lump: dice.pick(&[64, 4_096, usize::MAX]),
                is_unended: false,
            },
            dice,
            desk: Foreseer::new(),
        }
    }

    /// The script as it now is.
    pub fn script(self) -> Script {
        self.made
    }

    /// Writes a command, mostly in its plain spelling, so that scripts stay readable. After
    /// every call that may have changed the profile, the sum of the words is asked for. Whether
    /// the command is done.
    pub fn ask(&mut self, command: Command) -> bool {
        let text =
            if self.dice.one_in(6) { varied(&command, &mut self.dice) } else { plain(&command) };
        let foreseen = command.foresee(&mut self.desk);
        let is_done = foreseen.is_done();
        self.made.lines.push(Line { name: command.form.name, text, foreseen });
        if command.form.changes == Changes::Profile {
            self.ask_sum();
        }
        is_done
    }

    /// Writes any line, a command or not.
    pub fn write(&mut self, text: impl Into<Vec<u8>>) {
        let line = reading::line(text.into(), &mut self.desk);
        self.made.lines.push(line);
    }

    /// Asks for the sum, unless that was the last thing asked.
    pub fn ask_sum(&mut self) {
        let last = self.made.lines.last();
        if last.is_none_or(|line| line.name != "sum") {
            self.ask(sum());
        }
    }

    /// Whether memory is sound.
    pub fn is_sound(&self) -> bool {
        self.desk.profile().is_some()
    }

    /// The bands that are live, none where memory is not sound.
    pub fn bands(&self) -> Bands {
        let standing = self.desk.profile();
        standing.map_or_else(Bands::new, |profile| profile.bands.clone())
    }

    /// The nodes that stand, none where memory is not sound.
    pub fn nodes(&self) -> Nodes {
        let standing = self.desk.profile();
        standing.map_or_else(Nodes::new, |profile| profile.nodes.clone())
    }

    /// The lent words.
    pub fn words(&self) -> Words {
        self.desk.lending().words()
    }

    /// The least rooms that the standing profile can be lent, where there is one.
    pub fn rooms_in_use(&self) -> Option<(u32, u32)> {
        let profile = self.desk.profile()?;
        let (nodes, marks) = (profile.nodes.len(), profile.marks.len());
        Some((nodes.max(1) as u32, marks.max(1) as u32))
    }

    /// A change drawn from the ground by what stands.
    pub fn drawn(&mut self, ground: &Ground) -> Command {
        let bands = self.bands();
        ground.change(&mut self.dice, &bands)
    }

    /// An insert drawn from the ground by what stands.
    pub fn drawn_insert(&mut self, ground: &Ground) -> Command {
        let bands = self.bands();
        ground.insert(&mut self.dice, &bands)
    }

    /// Lends memory of these rooms and makes it empty, whatever its words were.
    pub fn begin(&mut self, nodes: u32, marks: u32) {
        self.ask(memory(nodes, marks));
        self.ask(empty());
        self.ask_what_stands();
    }

    /// Asks for a change and then for all that could show a mistake in it. A refused change
    /// must leave every word, so that the sum mostly tells enough.
    pub fn change(&mut self, change: Command, numbers: &[u32]) -> bool {
        let is_done = self.ask(change);
        self.ask_what_stands();
        if is_done || self.dice.one_in(8) {
            self.ask_all(numbers);
        }
        if self.dice.one_in(4) {
            self.ask_beyond();
        }
        is_done
    }

    /// A change in small rooms and a look at what stands; where a line has spoiled memory, it
    /// is made anew. For lives that are about something else.
    pub fn live_on(&mut self, ground: &Ground) {
        if !self.is_sound() {
            self.begin(20, 100);
        }
        let change = self.drawn(ground);
        self.ask(change);
        let key = self.dice.pick(&ground.ends);
        self.ask(stab(key));
    }

    /// The words and the room after a change, made or refused.
    pub fn ask_what_stands(&mut self) {
        self.ask_sum();
        self.ask(check());
        self.ask(room());
    }

    /// Every node, edge and band readout, and stabs at and beside all telling keys.
    pub fn ask_all(&mut self, numbers: &[u32]) {
        self.ask_marks(&self.nodes());
        self.ask_bands(numbers);
    }

    /// All that shows what is marked on these nodes and on the edges between them.
    pub fn ask_marks(&mut self, nodes: &Nodes) {
        self.ask_nodes(nodes);
        let keys: BTreeSet<u32> = beside(telling_keys(nodes)).collect();
        self.ask_stabs(keys);
    }

    /// The readouts of every node, in every lane and in one lane more.
    pub fn ask_nodes(&mut self, nodes: &Nodes) {
        for &key in nodes.keys() {
            self.ask(node(key));
            for lane in 0..=LANES {
                self.ask(edge(key, lane));
            }
        }
    }

    /// A stab at each key.
    pub fn ask_stabs(&mut self, keys: impl IntoIterator<Item = u32>) {
        for key in keys {
            self.ask(stab(key));
        }
    }

    /// A band readout of each number.
    pub fn ask_bands(&mut self, numbers: &[u32]) {
        for &number in numbers {
            self.ask(band(number));
        }
    }

    /// Stabs and readouts of keys, lanes and numbers that are none, each by itself and with
    /// another wrong one.
    pub fn ask_beyond(&mut self) {
        let key = self.dice.pick(&[HIGHEST_KEY + 1, 1 << 31, u32::MAX]);
        let lane = self.dice.pick(&[LANES, LANES + 1, 256, 1 << 16, u32::MAX]);
        let below = self.dice.below(HIGHEST_KEY + 1);
        let number = self.dice.pick(&[HIGHEST_NUMBER + 1, 1 << 16, u32::MAX]);
        for command in [stab(key), node(key), node(below), band(number)] {
            self.ask(command);
        }
        for (key, lane) in [(key, 0), (key, lane), (below, lane)] {
            self.ask(edge(key, lane));
        }
        if let Some((&key, _)) = self.nodes().first_key_value() {
            self.ask(edge(key, lane));
        }
    }
}
