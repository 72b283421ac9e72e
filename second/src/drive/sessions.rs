//! Which lives a desk is given in one session, and in which order.
//!
//! Starting a desk can be slow, so one is given many lives. Between two of them it is made as
//! if it were fresh.

use crate::calls::card::card_clear;
use crate::calls::empty::empty;
use crate::calls::lending::{fill, lengths, memory};
use crate::calls::reading::line;
use crate::desk::foreseer::Foreseer;
use crate::desk::script::Script;
use crate::desk::spelling::plain;
use crate::lives::kind::Kind;
use crate::lives::{endings, KINDS};

/// How many endings stand alone, with no life before them.
const BARE: usize = 3;
/// How many lines of a life are talked through: it is the console that is asked there.
const TALKED: usize = 2_000;

/// The lives of one session, and how its input ends.
#[derive(Clone)]
pub struct Session {
    lives: Vec<(&'static Kind, u64)>,
    ending: Script,
}

impl Session {
    /// The kind and the seed of each of its lives.
    pub fn lives(&self) -> impl Iterator<Item = (&'static str, u64)> + '_ {
        self.lives.iter().map(|(kind, seed)| (kind.name, *seed))
    }

    /// Its scripts, which a desk is given one after the other.
    pub fn scripts(&self) -> Vec<Script> {
        let lives = self.lives.iter();
        let mut scripts = Vec::new();
        for life in lives.map(|(kind, seed)| kind.script(*seed)) {
            scripts.extend([life, afresh()]);
        }
        scripts.push(self.ending.clone());
        scripts
    }
}

/// The sessions of a round, each with another ending; the lives of every kind are dealt out
/// among them. Every round takes the seeds after those of the one before.
pub fn sessions(round: u64) -> Vec<Session> {
    let endings = endings::all();
    let bare = endings[..BARE].iter().cloned();
    let bare = bare.map(|ending| Session { lives: Vec::new(), ending });
    let lives: Vec<(&Kind, u64)> = KINDS
        .iter()
        .flat_map(|kind| {
            (round * kind.seeds..(round + 1) * kind.seeds).map(move |seed| (kind, seed))
        })
        .collect();
    let many = endings.len();
    let full = endings.iter().cloned().enumerate().map(|(nth, ending)| Session {
        lives: lives.iter().copied().skip(nth).step_by(many).collect(),
        ending,
    });
    full.chain(bare).collect()
}

/// The scripts that a desk is given one line at a time.
pub fn talked() -> Vec<Script> {
    let mut scripts = Vec::new();
    for kind in KINDS.iter().filter(|kind| ["few_keys", "console"].contains(&kind.name)) {
        let mut life = kind.script(0);
        life.lines.truncate(TALKED);
        scripts.extend([life, afresh()]);
    }
    scripts
}

/// Lines that make any desk as if it were fresh: every word is 0 but for an empty profile in
/// the largest memory, and the card has no record.
pub fn afresh() -> Script {
    let mut desk = Foreseer::new();
    let commands =
        [lengths(8_200, 41_020, 16_400), fill(0), memory(2_048, 16_384), empty(), card_clear()];
    Script {
        kind: "afresh",
        seed: 0,
        lines: commands.map(|command| line(plain(&command), &mut desk)).to_vec(),
        lump: usize::MAX,
        is_unended: false,
    }
}
