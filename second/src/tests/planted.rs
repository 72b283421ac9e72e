//! Errors planted in a desk that answers by the model: each is found by some life and cut down
//! to a few lines. Among them are the paper's "Errors that look right".

use super::mistaken::{altered, assert_bites, at, found};
use crate::calls::card::{card_add, card_clear};
use crate::calls::empty::empty;
use crate::calls::insert::insert;
use crate::calls::lending::{memory, poke};
use crate::calls::reading::Read;
use crate::calls::stab::told;
use crate::calls::wheel;
use crate::desk::foreseen::Foreseen;
use crate::desk::foreseer::Foreseer;
use crate::desk::form::{band, numbers, Command, Word};
use crate::memory::words::Slice;
use crate::paper::band::Bands;
use crate::paper::lanes::{Lanes, Nodes, LANES};
use crate::paper::marks::{marked_at, Mark, Slot};
use crate::paper::profile::Profile;
use crate::paper::refusals::{MARKS_EXCEED, SIZES_OR_NOT_SOUND};
use crate::paper::search::{looks, marks_taken};
use crate::paper::wheel::{turned, Turn, Turned, PLACES};

/// The kinds whose lives are tried, in order.
const KINDS: &[&str] = &["few_keys", "few_marks", "many_machines", "spoiled_words", "console"];

#[test]
fn without_an_error_nothing_is_found() {
    assert!(found(KINDS, &|_, _| None).is_none());
}

/// An error in the stabs that are told by a profile: other marks are taken, or other looks.
fn bites_in_stabs(
    name: &str,
    most_lines: usize,
    spoil: fn(&Foreseer, &Profile, u32, &mut Vec<u32>, &mut u32),
) {
    let mistake = at("stab", move |command, desk| {
        let [key] = numbers(&command.words);
        let right = command.foresee(desk);
        match desk.marked() {
            Some(profile) if right.is_done() => {
                let mut taken = marks_taken(profile, key);
                let mut looks = looks(&profile.nodes, key);
                taken.sort();
                spoil(desk, profile, key, &mut taken, &mut looks);
                told(taken, looks)
            }
            _ => right,
        }
    });
    assert_bites(name, KINDS, most_lines, &mistake);
}

#[test]
fn in_a_search() {
    bites_in_stabs("a mark is lost where three bands are found", 4, |_, _, _, taken, _| {
        if taken.len() >= 3 {
            taken.pop();
        }
    });
    bites_in_stabs(
        "an edge that ends at the key hands out its marks",
        2,
        |_, profile, key, taken, _| {
            for lane in 0..LANES {
                let from =
                    *profile.lanes.between(lane, 0, key.saturating_sub(1)).last().unwrap_or(&key);
                if profile.lanes.next(lane, Some(from)) == Some(key) {
                    taken.extend(marked_at(&profile.marks, from, Slot::Edge(lane)));
                }
            }
        },
    );
    bites_in_stabs("the node at the key is forgotten", 2, |_, profile, key, taken, _| {
        let at_node: Vec<u32> = marked_at(&profile.marks, key, Slot::Node).collect();
        taken.retain(|number| !at_node.contains(number));
    });
    bites_in_stabs("a look too many", 2, |_, _, _, taken, looks| {
        *looks += u32::from(!taken.is_empty())
    });
    bites_in_stabs(
        "the node at the key counts among the taller",
        3,
        |_, profile, key, _, looks| {
            let (mut steps, mut tallest) = (0, profile.nodes.get(&key).copied().unwrap_or(0));
            for &level in profile.nodes.range(..key).rev().map(|(_, level)| level) {
                steps += u32::from(level >= tallest);
                tallest = tallest.max(level);
            }
            *looks = 8 + steps;
        },
    );
    bites_in_stabs("a mark is met twice", 3, |_, _, _, taken, _| {
        if taken.len() >= 2 {
            taken.push(taken[0]);
        }
    });
    bites_in_stabs(
        "a band of machine 12 hides one of machine 13",
        3,
        |_, profile, key, taken, _| {
            if profile.bands.values().any(|band| band.scope == 12) && key / 32_768 == 13 {
                taken.pop();
            }
        },
    );
    bites_in_stabs("a stab goes by the list of bands", 4, |desk, _, key, taken, _| {
        let listed = desk.lending().words().bands().into_values();
        let holding = listed.filter(|band| band.stretch.holds(key));
        *taken = holding.map(|band| band.number).collect();
    });
}

/// An error in the marks, as stabs show it.
fn bites_in_marks(name: &str, most_lines: usize, spoil: fn(&Profile) -> Vec<Mark>) {
    let mistake = at("stab", move |command, desk| {
        let [key] = numbers(&command.words);
        let right = command.foresee(desk);
        match desk.marked() {
            Some(profile) if right.is_done() => {
                let marks = spoil(profile);
                let mistaken = Profile { marks, ..profile.clone() };
                told(marks_taken(&mistaken, key), looks(&profile.nodes, key))
            }
            _ => right,
        }
    });
    assert_bites(name, KINDS, most_lines, &mistake);
}

/// Keeps the node marks of which this is so, by the edges from and to the node that bear the
/// same band, and all edge marks.
fn with_nodes(profile: &Profile, is_kept: fn(bool, bool) -> bool) -> Vec<Mark> {
    let on_edge = |band: u32, has_end: &dyn Fn(u32, u32) -> bool| {
        profile.marks.iter().any(|mark| match mark.slot {
            Slot::Edge(lane) if mark.band == band => {
                let to = profile.lanes.next(lane, Some(mark.key));
                to.is_some_and(|to| has_end(mark.key, to))
            }
            _ => false,
        })
    };
    let kept = profile.marks.iter().filter(|mark| {
        let leaving = on_edge(mark.band, &|from, _| from == mark.key);
        let arriving = on_edge(mark.band, &|_, to| to == mark.key);
        mark.slot != Slot::Node || is_kept(leaving, arriving)
    });
    kept.copied().collect()
}

#[test]
fn in_marks() {
    bites_in_marks("equal stretches are marked in every lane", 2, |profile| {
        let mut marks = profile.marks.clone();
        for mark in &profile.marks {
            if let Slot::Edge(lane) = mark.slot {
                let next = |lane| profile.lanes.next(lane, Some(mark.key));
                let below = (0..lane).filter(|&below| next(below) == next(lane));
                marks.extend(below.map(|lane| Mark { slot: Slot::Edge(lane), ..*mark }));
            }
        }
        marks.sort();
        marks
    });
    bites_in_marks("one-key bands are lost", 2, |profile| {
        with_nodes(profile, |leaving, arriving| leaving || arriving)
    });
    bites_in_marks("a node's mark goes with one of two edges", 2, |profile| {
        with_nodes(profile, |leaving, arriving| leaving && arriving)
    });
    bites_in_marks("an edge at an open end is taken to lie outside", 2, |profile| {
        let lies_inside = |mark: &&Mark| match mark.slot {
            Slot::Node => true,
            Slot::Edge(lane) => {
                let stretch = profile.bands[&mark.band].stretch;
                let to = profile.lanes.next(lane, Some(mark.key)).expect("an edge");
                stretch.holds(mark.key) && stretch.holds(to)
            }
        };
        profile.marks.iter().filter(lies_inside).copied().collect()
    });
}

/// An error in a change that is then done: other bands and nodes stand, marked by the rule.
fn bites_in_changes(
    name: &str,
    form: &str,
    most_lines: usize,
    spoil: fn(&Profile, &Command, &mut Bands, &mut Nodes),
) {
    let mistake = at(form, move |command, desk| {
        let before = desk.profile().cloned();
        let answer = command.foresee(desk);
        if let (true, Some(before), Some(after)) = (answer.is_done(), before, desk.profile()) {
            let (mut bands, mut nodes) = (after.bands.clone(), after.nodes.clone());
            spoil(&before, command, &mut bands, &mut nodes);
            let mistaken = Profile::marked(after.rooms, bands, nodes);
            desk.put(mistaken);
        }
        answer
    });
    assert_bites(name, KINDS, most_lines, &mistake);
}

#[test]
fn in_changes() {
    bites_in_changes(
        "a node goes though others end there",
        "remove",
        4,
        |before, command, _, nodes| {
            let [number, _] = numbers(&command.words);
            let ended = before.bands[&number].stretch;
            nodes.retain(|&key, _| key != ended.low && key != ended.high);
        },
    );
    bites_in_changes("a later call changes a level", "insert", 3, |_, command, _, nodes| {
        let [_, _, low_level, _] = numbers(&command.words);
        nodes.insert(band(&command.words).stretch.low, low_level);
    });
    bites_in_changes("an insert stores nothing", "insert", 2, |before, _, bands, nodes| {
        (*bands, *nodes) = (before.bands.clone(), before.nodes.clone());
    });
    let mistake = at("insert", |command, desk| {
        let before = desk.profile().cloned();
        let answer = command.foresee(desk);
        let number = band(&command.words).number;
        let (Some(before), Some(after)) = (before, desk.profile()) else {
            return answer;
        };
        let own = after.marks.iter().filter(|mark| mark.band == number).count();
        let is_full_midway = before.marks.len() + own > before.rooms.marks as usize;
        if answer.is_done() && is_full_midway {
            desk.put(before);
            return Foreseen::refused(MARKS_EXCEED);
        }
        answer
    });
    assert_bites("12 in the middle of a change that fits at its end", KINDS, 16, &mistake);
    let mistake = at("insert", |command, desk| {
        let answer = command.foresee(desk);
        if answer == Foreseen::refused(MARKS_EXCEED) {
            let before = desk.profile().cloned().expect("sound memory");
            let mut nodes = before.nodes.clone();
            nodes.entry(band(&command.words).stretch.low).or_insert(1);
            let lanes = Lanes::of(&nodes);
            desk.put(Profile { nodes, lanes, ..before });
        }
        answer
    });
    assert_bites("a node is left behind by a refusal", KINDS, 5, &mistake);
    let mistake = at("remove", |command, desk| {
        let answer = command.foresee(desk);
        let in_use = desk.profile().map(|profile| profile.marks.len());
        if let (true, Some(in_use)) = (answer.is_done(), in_use) {
            desk.lending_mut().slice_mut(Slice::Marks)[in_use] = 1;
        }
        answer
    });
    assert_bites("a word is left behind by a remove", KINDS, 4, &mistake);
}

/// What an error makes of an answer.
type Alter = fn(String) -> String;

#[test]
fn in_answers() {
    let wrong_words: [(&str, &str, usize, Alter); 6] = [
        ("a closed end is read out open", "band", 2, |text| text.replace(']', ")")),
        ("none is read out as key 0", "edge", 2, |text| text.replace("next none", "next 0")),
        ("12 is told for 11", "insert", 8, |text| match text.starts_with("11 ") {
            true => MARKS_EXCEED.to_string(),
            false => text,
        }),
        ("an insert is not refused by 12", "insert", 8, done_for_12),
        ("a remove is not refused by 12", "remove", 14, done_for_12),
        ("the check only says yes", "check", 8, |_| "yes".to_string()),
    ];
    for (name, form, most_lines, alter) in wrong_words {
        let mistake = at(form, |command, desk| altered(command.foresee(desk), alter));
        assert_bites(name, KINDS, most_lines, &mistake);
    }
}

fn done_for_12(text: String) -> String {
    match text.starts_with("12 ") {
        true => "0".to_string(),
        false => text,
    }
}

#[test]
fn in_lines() {
    let too_long = |asked: &Read, _: &mut Foreseer| match asked {
        Read::Wrong(_, "? line too long") => Some(Foreseen::whole("? no such command")),
        _ => None,
    };
    assert_bites("too long a line is told as no command", &["console"], 1, &too_long);
    let card_changes = [("card add", "clear"), ("card clear", "clear"), ("card scan", "add")];
    for (name, does) in card_changes {
        let mistake = |asked: &Read, desk: &mut Foreseer| {
            if matches!(asked, Read::Wrong(wrong, _) if *wrong == name) {
                match does {
                    "clear" => desk.card.clear(),
                    _ => desk.card.extend(desk.card.first().copied()),
                }
            }
            None
        };
        // Five where the scan tells a place: two records of one number behind the cleared one.
        assert_bites(&format!("a wrong {name} changes the card"), &["console"], 5, &mistake);
    }
}

/// A desk that does one thing more with commands of a name, in lives of a kind.
fn bites_with_more(kind: &str, name: &str, most_lines: usize, more: fn(&[Word]) -> Command) {
    let mistake = at(name, move |command, desk| {
        let answer = command.foresee(desk);
        more(&command.words).foresee(desk);
        answer
    });
    let told = format!("{name} does more");
    assert_bites(&told, &[kind], most_lines, &mistake);
}

#[test]
fn in_keeping_card_and_memory_apart() {
    for name in ["empty", "memory", "lengths", "fill", "poke", "card scan"] {
        bites_with_more("bench_card", name, 4, |_| card_clear());
    }
    bites_with_more("bench_card", "insert", 3, |words| card_add(band(words)));
    bites_with_more("bench_card", "card add", 3, |words| insert(band(words), 1, 1));
    bites_with_more("bench_card", "card clear", 3, |_| empty());
    bites_with_more("bench_card", "card add", 3, |_| poke(Slice::Marks, 0, 6));
    bites_with_more("bench_card", "card scan", 3, |_| memory(9, 9));
    let mistake = at("card add", |command, desk| {
        altered(command.foresee(desk), |text| text.replace("? card full", "0"))
    });
    // All that fill the card have to stay, so it is not cut down.
    assert!(found(&["bench_card"], &mistake).is_some());
}

/// What a wheel gives for a place.
type Wheel = fn(u32) -> Turned;

/// Wheels with an error in them.
const WHEELS: [(&str, Wheel); 12] = [
    ("levels are counted from 0", |place| spoiled(place, |turn| turn.level -= 1)),
    ("no level is capped", |place| spoiled(place, |turn| turn.level = 1 + place.trailing_zeros())),
    ("the last place is not capped", |place| match place {
        PLACES => spoiled(place, |turn| turn.level = 11),
        _ => turned(place),
    }),
    ("the middle place is one level low", |place| match place {
        512 => spoiled(place, |turn| turn.level -= 1),
        _ => turned(place),
    }),
    ("every place has the level of the next", |place| {
        let next = turned(place)?.next;
        Ok(Turn { next, ..turned(next)? })
    }),
    ("the last place is followed by one more", |place| {
        spoiled(place, |turn| turn.next = place + 1)
    }),
    ("the last place but one is followed by 0", |place| {
        spoiled(place, |turn| turn.next = (place + 1) % PLACES)
    }),
    ("a place is followed by itself", |place| spoiled(place, |turn| turn.next = place)),
    ("place 0 is taken for the last", |place| match place {
        0 => turned(PLACES),
        _ => turned(place),
    }),
    ("the place after the last is taken for the first", |place| match place {
        1_025 => turned(1),
        _ => turned(place),
    }),
    ("places past the last go round", |place| match place {
        0 => turned(place),
        _ => turned((place - 1) % PLACES + 1),
    }),
    ("the upper bits of a place are lost", |place| turned(place % (1 << 16))),
];

/// The right turn with something wrong in it.
fn spoiled(place: u32, spoil: impl FnOnce(&mut Turn)) -> Turned {
    let mut turn = turned(place)?;
    spoil(&mut turn);
    Ok(turn)
}

/// A wheel by another rule, which may go by what is lent.
fn wheel_by<'a>(
    turned: impl Fn(u32, &Foreseer) -> Turned + 'a,
) -> impl Fn(&Read, &mut Foreseer) -> Option<Foreseen> + 'a {
    at("wheel", move |command, desk| {
        let [place] = numbers(&command.words);
        wheel::told(place, turned(place, desk))
    })
}

#[test]
fn in_the_wheel() {
    assert!(found(&["wheel"], &wheel_by(|place, _| turned(place))).is_none());
    for (name, mistaken) in WHEELS {
        assert_bites(name, &["wheel"], 1, &wheel_by(|place, _| mistaken(place)));
    }
    let for_sizes = wheel_by(|place, desk| match desk.lending().rooms() {
        Some(_) => turned(place),
        None => Err(SIZES_OR_NOT_SOUND),
    });
    assert_bites("wrong sizes refuse the wheel", &["wheel"], 2, &for_sizes);
    let for_memory = wheel_by(|place, desk| match (desk.profile(), desk.lending().rooms()) {
        (None, Some(_)) => Err(SIZES_OR_NOT_SOUND),
        _ => turned(place),
    });
    assert_bites("memory not sound refuses the wheel", &["wheel"], 2, &for_memory);
    bites_with_more("wheel", "wheel", 3, |_| card_clear());
    bites_with_more("wheel", "wheel", 3, |_| empty());
    bites_with_more("wheel", "wheel", 3, |_| memory(9, 9));
    bites_with_more("wheel", "wheel", 3, |words| poke(Slice::Nodes, 0, numbers::<1>(words)[0]));
}
