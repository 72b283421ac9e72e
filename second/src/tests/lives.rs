//! What the lives must meet, all by what is foreseen of them.

use crate::calls::reading::{line, read, Read};
use crate::desk::foreseen::Foreseen;
use crate::desk::foreseer::Foreseer;
use crate::desk::form::numbers;
use crate::desk::script::{Line, Script};
use crate::drive::cutting::foresee_anew;
use crate::drive::sessions::{afresh, sessions};
use crate::drive::tally::{expected, Tally};
use crate::lives::kind::Kind;
use crate::lives::spoiling::{all_spots, sort_of};
use crate::lives::KINDS;
use crate::paper::wheel::PLACES;
use std::collections::BTreeSet;

/// Every kind whose lives are made in no time.
fn quick_kinds() -> impl Iterator<Item = &'static Kind> {
    KINDS.iter().filter(|kind| kind.name != "full")
}

fn script(kind: &str, seed: u64) -> Script {
    let kind = KINDS.iter().find(|other| other.name == kind);
    kind.expect("a kind").script(seed)
}

/// Shows what each line of a script is counted under, and the state after it.
fn follow(script: &Script, mut show: impl FnMut(&str, &Foreseer)) {
    let mut desk = Foreseer::new();
    for each in &script.lines {
        line(each.text.clone(), &mut desk);
        show(each.name, &desk);
    }
}

#[test]
fn the_same_seed_is_the_same_script_and_another_seed_another() {
    for kind in quick_kinds() {
        assert_eq!(kind.script(1), kind.script(1), "{}", kind.name);
        assert_ne!(kind.script(1).lines, kind.script(2).lines, "{}", kind.name);
    }
}

#[test]
fn every_spelling_of_a_command_is_read_as_the_command() {
    for kind in quick_kinds() {
        let script = kind.script(3);
        let mut anew = script.clone();
        foresee_anew(&mut anew);
        assert_eq!(anew, script);
        assert!(script.lines.iter().all(|line| !line.text.contains(&b'\n')));
    }
}

#[test]
fn the_sum_is_asked_for_after_every_call_that_may_change_the_profile() {
    for kind in quick_kinds() {
        for pair in kind.script(2).lines.windows(2) {
            let is_change = ["insert", "remove", "empty"].contains(&pair[0].name);
            let is_wrong = matches!(&pair[0].foreseen, Foreseen::Exactly(answer, _) if answer.starts_with('?'));
            let is_spelled_out = kind.name == "console";
            assert!(!is_change || is_wrong || is_spelled_out || pair[1].name == "sum");
        }
    }
}

#[test]
fn a_few_lives_of_all_kinds_meet_every_answer_there_is() {
    let mut tally = Tally::default();
    for kind in quick_kinds() {
        for seed in 0..4 {
            tally.count(&kind.script(seed));
        }
    }
    assert_eq!(tally.complaints(), [""; 0]);
}

#[test]
fn a_run_that_never_saw_an_answer_is_complained_about() {
    let mut tally = Tally::default();
    let many: usize = expected().iter().map(|(_, answers)| answers.len()).sum();
    assert_eq!(tally.complaints().len(), many);
    for complaint in [
        "remove answered 12",
        "? answered ? line too long",
        "card scan answered 8 at the last place",
    ] {
        assert!(tally.complaints().contains(&format!("never seen: {complaint}")));
    }
    let mut strange = script("few_keys", 0);
    strange.lines.truncate(1);
    strange.lines[0].foreseen = Foreseen::whole("13");
    tally.count(&strange);
    assert!(tally.complaints().contains(&"not known: memory answered 13".to_string()));
}

#[test]
fn a_desk_made_afresh_is_a_fresh_one() {
    let mut desk = Foreseer::new();
    for each in script("bench_card", 0).lines.iter().chain(&afresh().lines) {
        line(each.text.clone(), &mut desk);
    }
    assert_eq!(desk.lending(), Foreseer::new().lending());
    assert_eq!(desk.card, []);
}

#[test]
fn a_round_has_every_seed_of_every_kind_once() {
    let sessions = sessions(1);
    let mut lives: Vec<(&str, u64)> = sessions.iter().flat_map(|session| session.lives()).collect();
    lives.sort();
    let all =
        KINDS.iter().flat_map(|kind| (kind.seeds..2 * kind.seeds).map(|seed| (kind.name, seed)));
    let mut all: Vec<(&str, u64)> = all.collect();
    all.sort();
    assert_eq!(lives, all);
}

#[test]
fn words_of_every_sort_are_spoiled_in_every_script() {
    for seed in 0..4 {
        let mut spoiled = BTreeSet::new();
        let mut before = Foreseer::new();
        follow(&script("spoiled_words", seed), |name, after| {
            if name == "poke" && before.profile().is_some() {
                let (words, now) = (before.lending().words(), after.lending().words());
                let changed = all_spots(&words).find(|&(slice, index)| {
                    words.of(slice)[index as usize] != now.of(slice)[index as usize]
                });
                spoiled.extend(changed.map(|spot| sort_of(&words, spot)));
            }
            before = after.clone();
        });
        let (bands, header, nodes, marks) = (2 * 8, 20, 2 * 20, 2);
        assert_eq!(spoiled.len(), bands + header + nodes + marks);
    }
}

#[test]
fn the_wheel_is_asked_for_every_place_in_order_in_every_script() {
    let place = |line: Line| match read(&line.text) {
        Read::Command(command) if command.form.name == "wheel" => Some(numbers(&command.words)),
        _ => None,
    };
    let round: Vec<[u32; 1]> = (1..=PLACES).chain([1]).map(|place| [place]).collect();
    for seed in 0..4 {
        let asked: Vec<[u32; 1]> =
            script("wheel", seed).lines.into_iter().filter_map(place).collect();
        assert!(asked.windows(round.len()).any(|places| places == round));
    }
}

#[test]
fn full_profiles_have_every_number_every_node_place_and_the_longest_answers() {
    let (mut nodes, mut looks, mut count) = (0, 0, 0);
    for line in script("full", 0).lines {
        if let Foreseen::Exactly(answer, _) = line.foreseen {
            let words: Vec<&str> = answer.split(' ').collect();
            let number = |word: &str| word.parse::<u32>().expect("a number");
            match words[..] {
                ["0", "nodes", many, ..] => nodes = nodes.max(number(many)),
                ["0", "count", found, "met", _, "looks", steps, ..] => {
                    looks = looks.max(number(steps));
                    count = count.max(number(found));
                }
                _ => {}
            }
        }
    }
    assert_eq!((nodes, looks, count), (2_048, 8 + 2_048, 1_024));
}
