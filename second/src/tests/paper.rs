//! The model is held to the paper's sentences, each in one piece and by trying everything:
//! "Marks", "The search" and "What one call can reach" over the changes of some lives, and the
//! wheel of levels over all of it.

use crate::calls::reading::line;
use crate::desk::foreseer::Foreseer;
use crate::lives::telling::{machine_borders, telling_keys};
use crate::lives::KINDS;
use crate::paper::band::{Band, HOUSE};
use crate::paper::hall::{is_key_of, HIGHEST_KEY};
use crate::paper::lanes::{Nodes, LANES};
use crate::paper::marks::{Mark, Slot};
use crate::paper::profile::Profile;
use crate::paper::refusals::WRONG_LEVEL_OR_PLACE;
use crate::paper::search::{looks, marks_taken};
use crate::paper::wheel::turned;
use std::collections::BTreeSet;

/// The profiles before and after each accepted change of a few lives, and its band.
fn each_change(mut show: impl FnMut(&Profile, &Profile, Band)) {
    let mut changes = 0;
    for (name, seeds) in [("few_keys", 4), ("few_marks", 2), ("many_machines", 1)] {
        let kind = KINDS.iter().find(|kind| kind.name == name).expect("a kind");
        for script in (0..seeds).map(|seed| kind.script(seed)) {
            let mut desk = Foreseer::new();
            let mut before = desk.profile().cloned();
            for each in script.lines {
                let is_change = ["insert", "remove"].contains(&each.name);
                line(each.text, &mut desk);
                let after = desk.profile().cloned();
                if let (true, Some(before), Some(after)) = (is_change, &before, &after) {
                    let gone =
                        before.bands.values().find(|band| !after.bands.contains_key(&band.number));
                    let come =
                        after.bands.values().find(|band| !before.bands.contains_key(&band.number));
                    if let Some(band) = gone.or(come) {
                        show(before, after, *band);
                        changes += 1;
                    }
                }
                before = after;
            }
        }
    }
    assert!(changes > 500, "{changes} changes");
}

/// Every edge: its lane and its two nodes.
fn all_edges(nodes: &Nodes) -> Vec<(u32, u32, u32)> {
    let of_lane = |lane| {
        let keys: Vec<u32> =
            nodes.iter().filter(|node| lane < *node.1).map(|node| *node.0).collect();
        let edges: Vec<(u32, u32, u32)> =
            keys.windows(2).map(|pair| (lane, pair[0], pair[1])).collect();
        edges
    };
    (0..LANES).flat_map(of_lane).collect()
}

/// The marks of a profile by the two sentences under "Marks".
fn marks_by_trying(profile: &Profile) -> BTreeSet<Mark> {
    let edges = all_edges(&profile.nodes);
    let mut marks = BTreeSet::new();
    for (&band, Band { stretch, .. }) in &profile.bands {
        let inside = |from: u32, to: u32| stretch.low <= from && to <= stretch.high;
        for &(lane, from, to) in &edges {
            let covers = |&(above, start, end): &(u32, u32, u32)| {
                above > lane && start <= from && to <= end && inside(start, end)
            };
            if inside(from, to) && !edges.iter().any(covers) {
                marks.insert(Mark { key: from, slot: Slot::Edge(lane), band });
            }
        }
        for &key in profile.nodes.keys() {
            let passes =
                |&(_, from, to): &(u32, u32, u32)| from < key && key < to && inside(from, to);
            if stretch.holds(key) && !edges.iter().any(passes) {
                marks.insert(Mark { key, slot: Slot::Node, band });
            }
        }
    }
    marks
}

#[test]
fn marks_stand_where_the_paper_says_and_a_search_takes_each_held_band_once() {
    let mut nth = 0;
    each_change(|_, after, _| {
        nth += 1;
        if nth % 3 == 0 {
            let marks = after.marks.iter().copied().collect::<BTreeSet<Mark>>();
            assert_eq!(marks, marks_by_trying(after));
        }
        for key in telling_keys(&after.nodes) {
            let mut taken = marks_taken(after, key);
            taken.sort();
            let holding = after.bands.values().filter(|band| band.stretch.holds(key));
            assert_eq!(taken, holding.map(|band| band.number).collect::<Vec<u32>>());
            let stepped = after.nodes.range(..key).filter(|(&below, &level)| {
                !after.nodes.range(below + 1..key).any(|(_, &between)| between > level)
            });
            assert_eq!(looks(&after.nodes, key), 8 + stepped.count() as u32);
        }
    });
}

/// The reach of each node made or dropped, to the nearest lasting nodes of which this is so.
fn reaches(before: &Nodes, after: &Nodes, ends: fn(u32, u32) -> bool) -> Vec<(u32, u32)> {
    let lasting: Nodes = before
        .iter()
        .filter(|node| after.contains_key(node.0))
        .map(|(&key, &level)| (key, level))
        .collect();
    let changed = before.iter().chain(after).filter(|node| !lasting.contains_key(node.0));
    let reach = |(&key, &level): (&u32, &u32)| {
        let is_end = |node: &(&u32, &u32)| ends(*node.1, level);
        let from = lasting.range(..key).rev().find(is_end).map_or(0, |node| *node.0);
        let to = lasting.range(key..).find(is_end).map_or(HIGHEST_KEY, |node| *node.0);
        (from, to)
    };
    changed.map(reach).collect()
}

/// Whether bands other than the call's keep every mark out of reach, and gain none there.
fn are_kept(before: &Profile, after: &Profile, band: Band, reaches: &[(u32, u32)]) -> bool {
    let out_of_reach = |profile: &Profile| {
        let is_out = |mark: &&Mark| {
            let is_in = |&(from, to): &(u32, u32)| match mark.slot {
                Slot::Node => from < mark.key && mark.key < to,
                Slot::Edge(lane) => {
                    let end = profile.lanes.next(lane, Some(mark.key));
                    from <= mark.key && end.is_some_and(|end| end <= to)
                }
            };
            mark.band != band.number && !reaches.iter().any(is_in)
        };
        profile.marks.iter().filter(is_out).copied().collect::<BTreeSet<Mark>>()
    };
    out_of_reach(before) == out_of_reach(after)
}

#[test]
fn other_bands_keep_their_marks_out_of_reach_and_not_in_a_shorter_one() {
    let mut is_noticed = false;
    each_change(|before, after, band| {
        let by_level = reaches(&before.nodes, &after.nodes, |other, level| other >= level);
        assert!(are_kept(before, after, band, &by_level));
        let too_short = reaches(&before.nodes, &after.nodes, |_, _| true);
        is_noticed |= !are_kept(before, after, band, &too_short);
    });
    assert!(is_noticed);
}

#[test]
fn a_machines_call_changes_no_answer_at_another_machine_but_looks() {
    each_change(|before, after, band| {
        let mut keys = telling_keys(&before.nodes);
        keys.extend(telling_keys(&after.nodes));
        keys.extend(machine_borders());
        for key in keys {
            if band.scope != HOUSE && !is_key_of(band.scope, key) {
                let [mut one, mut other] = [before, after].map(|profile| marks_taken(profile, key));
                one.sort();
                other.sort();
                assert_eq!(one, other, "{key}");
            }
        }
    });
}

/// One more than the trailing zero bits, which are counted as they are written, and 8 where
/// that would be more.
fn level_by_bits(number: u32) -> usize {
    let bits = format!("{number:b}");
    let zeros = bits.len() - bits.trim_end_matches('0').len();
    (zeros + 1).min(8)
}

#[test]
fn the_wheel_goes_by_its_rule_once_round_and_on() {
    let mut place = 1;
    for number in 1..=5_000 {
        assert_eq!(place, (number - 1) % 1_024 + 1);
        let turn = turned(place).expect("a place");
        assert_eq!(turn.level as usize, level_by_bits(place), "place {place}");
        // What is carried on past the last place is the rule again.
        assert_eq!(turn.level as usize, level_by_bits(number), "number {number}");
        place = turn.next;
    }
}

#[test]
fn half_the_wheel_is_of_level_1_and_each_next_level_has_half_as_many() {
    let mut places = [0; 8];
    for place in 1..=1_024 {
        places[turned(place).expect("a place").level as usize - 1] += 1;
    }
    assert_eq!(places, [512, 256, 128, 64, 32, 16, 8, 8]);
}

#[test]
fn the_wheel_refuses_every_other_place_by_7() {
    let high = (1_025..70_000).chain(u32::MAX - 70_000..=u32::MAX);
    for place in [0].into_iter().chain(high) {
        assert_eq!(turned(place), Err(WRONG_LEVEL_OR_PLACE), "{place}");
    }
    assert_eq!(WRONG_LEVEL_OR_PLACE.number(), "7");
}
