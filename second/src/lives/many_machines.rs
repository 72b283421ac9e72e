//! Lives over many machines: what a machine's call does must not show at another's keys.

use super::ground::Ground;
use super::kind::Kind;
use super::telling::{machine_borders, telling_keys};
use super::writer::Writer;
use super::wrong_words::spoiled_once_in;
use crate::dice::Dice;
use crate::paper::band::HOUSE;
use crate::paper::hall::{first_key, last_key, MACHINES};

/// Many machines.
pub const KIND: Kind = Kind {
    name: "many_machines",
    says: "bands at the borders of many machines, house bands across, stabs at every border",
    seeds: 64,
    write,
};

const CHANGES: u32 = 100;

fn write(writer: &mut Writer, _: u64) {
    let ground = ground(&mut writer.dice);
    let nodes = 40 + writer.dice.below(300);
    let marks = 200 + writer.dice.below(4_000);
    writer.begin(nodes, marks);
    for _ in 0..CHANGES {
        // Mostly inserts, so that many bands stand.
        let (bands, dice) = (writer.bands(), &mut writer.dice);
        let change = match dice.one_in(4) {
            true => ground.remove(dice, &bands),
            false => ground.insert(dice, &bands),
        };
        let change = spoiled_once_in(12, dice, change);
        if writer.ask(change) {
            ask_every_machine(writer);
        }
        if writer.dice.one_in(25) {
            writer.ask_what_stands();
            writer.ask_all(&ground.numbers);
        }
    }
    writer.ask_what_stands();
}

/// The keys at and near both borders of many machines, and house bands between any.
pub fn ground(dice: &mut Dice) -> Ground {
    let many = 8 + dice.below(57) as usize;
    let machines = dice.different(many, MACHINES);
    let mut ends = Vec::new();
    for &machine in &machines {
        let (first, last) = (first_key(machine), last_key(machine));
        let inner = first + 2 + dice.below(32_760);
        ends.extend([first, first + 1, inner, last - 1, last]);
    }
    ends.sort();
    let mut scopes = machines;
    scopes.extend(vec![HOUSE; scopes.len() / 3]);
    Ground {
        ends,
        scopes,
        numbers: (0..200).map(|nth| nth * 5 + nth % 5).collect(),
        one_key_or_all: false,
    }
}

/// Stabs at the borders of every machine, and at and beside a few nodes.
fn ask_every_machine(writer: &mut Writer) {
    writer.ask_stabs(machine_borders());
    let mut keys: Vec<u32> = telling_keys(&writer.nodes()).into_iter().collect();
    writer.dice.shuffle(&mut keys);
    keys.truncate(20);
    writer.ask_stabs(keys);
}
