//! Plans for full profiles: 1,024 stretches each, in the order they are inserted in.

use crate::dice::Dice;
use crate::paper::band::{HIGHEST_NUMBER, HOUSE};
use crate::paper::hall::{HIGHEST_KEY, KEYS_PER_MACHINE, MACHINES};

/// A scope and the two ends of a band.
pub type Place = (u32, u32, u32);

/// A plan gives places by the dice.
pub type Plan = fn(&mut Dice) -> Vec<Place>;

/// How many bands a full profile has, and how many ends.
pub const BANDS: usize = HIGHEST_NUMBER as usize + 1;
const ENDS: usize = 2 * BANDS;

/// Two profiles of a life, each a plan and the level of all its nodes; where that is none,
/// levels are tossed. Nodes that are all as tall as each other make as many looks as there can
/// be, and a deep nest of them soon more marks than there can be.
pub const PLANS: [[(Plan, Option<u32>); 2]; 4] = [
    [(in_one_machine, Some(1)), (around_one_key, None)],
    [(over_all_machines, Some(8)), (on_two_keys, None)],
    [(in_nests, None), (in_one_deep_nest, Some(2))],
    [(over_all_machines, None), (in_one_machine, None)],
];

/// All 2,048 ends are different keys of one machine, and bands overlap near by.
fn in_one_machine(dice: &mut Dice) -> Vec<Place> {
    let machine = dice.below(MACHINES);
    let first = machine * KEYS_PER_MACHINE;
    let ends = dice.different(ENDS, KEYS_PER_MACHINE);
    let ends: Vec<u32> = ends.into_iter().map(|key| first + key).collect();
    near_by(dice, &ends, 16)
}

/// 32 ends in every machine, the first and the last key among them; house bands run over the
/// borders.
fn over_all_machines(dice: &mut Dice) -> Vec<Place> {
    let mut ends = Vec::new();
    for machine in 0..MACHINES {
        let first = machine * KEYS_PER_MACHINE;
        let inner = dice.different(ENDS / MACHINES as usize - 2, KEYS_PER_MACHINE - 2);
        ends.push(first);
        ends.extend(inner.into_iter().map(|key| first + 1 + key));
        ends.push(first + KEYS_PER_MACHINE - 1);
    }
    near_by(dice, &ends, 12)
}

/// Sixteen bands one in the other, 64 times side by side.
fn in_nests(dice: &mut Dice) -> Vec<Place> {
    nested(dice, 32)
}

/// All bands one in the other.
fn in_one_deep_nest(dice: &mut Dice) -> Vec<Place> {
    nested(dice, ENDS)
}

/// Every band holds one key: it has ends at a few keys around it, or both at it.
fn around_one_key(dice: &mut Dice) -> Vec<Place> {
    let key = 100 + dice.below(HIGHEST_KEY - 200);
    let step = 1 + dice.below(9);
    let mut place = || {
        let mut away = [1 + dice.below(6), 1 + dice.below(6)];
        if dice.one_in(8) {
            away = [0; 2];
        }
        let (low, high) = (key - step * away[0], key + step * away[1]);
        (scope_of(dice, low, high), low, high)
    };
    (0..BANDS).map(|_| place()).collect()
}

/// Nothing but two keys, side by side or far apart.
fn on_two_keys(dice: &mut Dice) -> Vec<Place> {
    let one = dice.below(KEYS_PER_MACHINE);
    let other = one + dice.pick(&[1, 2, KEYS_PER_MACHINE, HIGHEST_KEY - KEYS_PER_MACHINE]);
    let places = [(HOUSE, one, one), (HOUSE, one, other), (HOUSE, other, other)];
    (0..BANDS).map(|_| dice.pick(&places)).collect()
}

/// Runs of so many ends over the whole line, each run a nest; in any order.
fn nested(dice: &mut Dice, run: usize) -> Vec<Place> {
    let mut places = Vec::new();
    for nest in dice.different(ENDS, HIGHEST_KEY + 1).chunks(run) {
        let outside_in = nest.iter().zip(nest.iter().rev());
        let pairs = outside_in.take(nest.len() / 2);
        places.extend(pairs.map(|(&low, &high)| (HOUSE, low, high)));
    }
    dice.shuffle(&mut places);
    places
}

/// Ends joined two by two among so many next to each other; in any order.
fn near_by(dice: &mut Dice, ends: &[u32], window: usize) -> Vec<Place> {
    let mut places = Vec::new();
    for near in ends.chunks(window) {
        let mut near = near.to_vec();
        dice.shuffle(&mut near);
        for pair in near.chunks_exact(2) {
            let (low, high) = (pair[0].min(pair[1]), pair[0].max(pair[1]));
            places.push((scope_of(dice, low, high), low, high));
        }
    }
    dice.shuffle(&mut places);
    places
}

/// Mostly the machine, where both ends are of one.
fn scope_of(dice: &mut Dice, low: u32, high: u32) -> u32 {
    let machine = low / KEYS_PER_MACHINE;
    if machine == high / KEYS_PER_MACHINE && !dice.one_in(4) {
        machine
    } else {
        HOUSE
    }
}
