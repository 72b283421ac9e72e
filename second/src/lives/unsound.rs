//! Profiles that break a rule, to be laid as if they were sound: the words agree with each
//! other, and only the rules tell that they are wrong.

use crate::dice::Dice;
use crate::paper::band::{all_ends, Band, Stretch, HOUSE};
use crate::paper::hall::HIGHEST_KEY;
use crate::paper::lanes::Lanes;
use crate::paper::marks::Mark;
use crate::paper::profile::Profile;

/// A way to break a rule of a profile that has bands.
type Break = fn(&mut Dice, &mut Profile);

/// After these the marks are made anew, so that only one thing is wrong.
const MARKED_ANEW: [Break; 6] = [
    needless_node,
    missing_node,
    no_level,
    ends_the_wrong_way_round,
    no_whole_key,
    end_past_the_line,
];

/// After these they stay as they were.
const MARKED_AS_BEFORE: [Break; 7] = [
    other_level,
    lost_mark,
    needless_mark,
    mark_of_no_band,
    other_brackets,
    wrong_scope,
    high_scope,
];

/// The profile with a rule broken, in every way; a way that finds nothing to break leaves it
/// as it is. Where there is no band, nothing can be broken so.
pub fn broken(dice: &mut Dice, profile: &Profile) -> Vec<Profile> {
    let mut broken = Vec::new();
    if profile.bands.is_empty() {
        return broken;
    }
    for break_rule in MARKED_ANEW {
        let mut made = profile.clone();
        break_rule(dice, &mut made);
        broken.push(Profile::marked(made.rooms, made.bands, made.nodes));
    }
    for break_rule in MARKED_AS_BEFORE {
        let mut made = profile.clone();
        break_rule(dice, &mut made);
        made.lanes = Lanes::of(&made.nodes);
        made.marks.sort();
        broken.push(made);
    }
    broken
}

/// One of the live bands, to be changed.
fn some_band<'a>(dice: &mut Dice, profile: &'a mut Profile) -> &'a mut Band {
    let nth = dice.below(profile.bands.len() as u32) as usize;
    profile.bands.values_mut().nth(nth).expect("a band")
}

/// The key of one of the nodes.
fn some_node(dice: &mut Dice, profile: &Profile) -> u32 {
    let keys: Vec<u32> = profile.nodes.keys().copied().collect();
    dice.pick(&keys)
}

/// A node where no band ends.
fn needless_node(dice: &mut Dice, profile: &mut Profile) {
    let from = some_node(dice, profile);
    let free = (from..=HIGHEST_KEY).find(|key| !profile.nodes.contains_key(key));
    profile.nodes.extend(free.map(|key| (key, 1)));
}

/// No node where a band ends.
fn missing_node(dice: &mut Dice, profile: &mut Profile) {
    let key = some_node(dice, profile);
    profile.nodes.remove(&key);
}

/// A node's level is none.
fn no_level(dice: &mut Dice, profile: &mut Profile) {
    let key = some_node(dice, profile);
    profile.nodes.insert(key, dice.pick(&[0, 9]));
}

/// A band's low end is above its high end.
fn ends_the_wrong_way_round(dice: &mut Dice, profile: &mut Profile) {
    let stretch = &mut some_band(dice, profile).stretch;
    (stretch.low, stretch.high) = (stretch.high, stretch.low);
}

/// A band that holds nothing, with nodes at its ends.
fn no_whole_key(dice: &mut Dice, profile: &mut Profile) {
    let key = some_node(dice, profile);
    some_band(dice, profile).stretch = Stretch::closed(key, key).with_closed(false, false);
    keep_nodes_at_ends(profile);
}

/// A house band that ends past the line, with a node there.
fn end_past_the_line(dice: &mut Dice, profile: &mut Profile) {
    let band = some_band(dice, profile);
    (band.scope, band.stretch.high) = (HOUSE, HIGHEST_KEY + 1);
    profile.nodes.insert(HIGHEST_KEY + 1, 1);
    keep_nodes_at_ends(profile);
}

/// A node is taller or lower than when the marks were made.
fn other_level(dice: &mut Dice, profile: &mut Profile) {
    let key = some_node(dice, profile);
    profile.nodes.insert(key, 1 + dice.below(8));
}

/// A mark is gone.
fn lost_mark(dice: &mut Dice, profile: &mut Profile) {
    let nth = dice.below(profile.marks.len() as u32);
    profile.marks.remove(nth as usize);
}

/// A live band is marked at a place where the rule does not mark it.
fn needless_mark(dice: &mut Dice, profile: &mut Profile) {
    let numbers: Vec<u32> = profile.bands.keys().copied().collect();
    one_mark_more(dice, profile, &numbers);
}

/// A number that is not live is marked.
fn mark_of_no_band(dice: &mut Dice, profile: &mut Profile) {
    let is_free = |number: &u32| !profile.bands.contains_key(number);
    let numbers: Vec<u32> = (0..1_024).filter(is_free).collect();
    one_mark_more(dice, profile, &numbers);
}

/// At some place the first of these numbers that is not marked there is marked too.
fn one_mark_more(dice: &mut Dice, profile: &mut Profile, numbers: &[u32]) {
    let place = dice.pick(&profile.marks);
    let mut more = numbers.iter().map(|&band| Mark { band, ..place });
    let more = more.find(|mark| !profile.marks.contains(mark));
    profile.marks.extend(more);
}

/// An end is open that was closed when the marks were made, or the other way round.
fn other_brackets(dice: &mut Dice, profile: &mut Profile) {
    let is_high = dice.one_in(2);
    let stretch = &mut some_band(dice, profile).stretch;
    match is_high {
        true => stretch.high_closed = !stretch.high_closed,
        false => stretch.low_closed = !stretch.low_closed,
    }
}

/// A machine's band is at another machine's keys.
fn wrong_scope(dice: &mut Dice, profile: &mut Profile) {
    some_band(dice, profile).scope = dice.pick(&[1, 62, 63]);
}

/// A scope above the house's.
fn high_scope(dice: &mut Dice, profile: &mut Profile) {
    some_band(dice, profile).scope = dice.pick(&[HOUSE + 1, 256, u32::MAX]);
}

/// No node but at the bands' ends.
fn keep_nodes_at_ends(profile: &mut Profile) {
    let ends = all_ends(&profile.bands);
    profile.nodes.retain(|key, _| ends.contains(key));
}
