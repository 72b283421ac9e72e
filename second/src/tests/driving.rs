//! Desks that are a line of shell: what they write is heard to the end, and a desk that goes
//! wrong is told, whole or in talking; and what the program prints.

use crate::calls::reading::line;
use crate::desk::foreseen::Foreseen;
use crate::desk::foreseer::Foreseer;
use crate::desk::script::Script;
use crate::dice::Dice;
use crate::drive::comparing::{first_difference, Difference};
use crate::drive::cutting::{cut, cut_session, Cut, MOST_RUNS};
use crate::drive::process::{Desk, End, Heard};
use crate::drive::program::{program, CALLED_WRONGLY, DIFFERENT};
use crate::drive::running::run;
use crate::drive::sessions::{afresh, sessions, Session};
use crate::drive::showing::shown;
use crate::drive::talking::first_difference_talked;
use crate::lives::endings;
use std::time::Duration;

/// A desk that is a line of shell.
fn shell(does: &str) -> Desk {
    Desk { arguments: vec!["-c".to_string(), does.to_string()], ..Desk::at("/bin/sh") }
}

fn script(lines: &[&str]) -> Script {
    let mut desk = Foreseer::new();
    Script {
        lines: lines.iter().map(|text| line(text.as_bytes().to_vec(), &mut desk)).collect(),
        lump: 3,
        ..afresh()
    }
}

/// Answered by three lines: 0, a wrong command, yes.
fn three() -> Script {
    script(&["# a remark", "empty", "emptied", "  ", "check"])
}

/// The line at which a desk goes wrong, what it answered there, and the same in talking.
fn told(does: &str) -> Option<(Option<usize>, String)> {
    let scripts = [three()];
    let difference = first_difference(&scripts, &shell(does).hear(&scripts))?;
    Some((difference.line, difference.answered))
}

fn talked(desk: &Desk) -> Option<(Option<usize>, String)> {
    let difference = first_difference_talked(desk, &[three()])?;
    Some((difference.line, difference.answered))
}

#[test]
fn a_desk_that_answers_as_foreseen_is_fine_whatever_number_it_ends_with() {
    for end in ["", "; exit 3"] {
        let does = format!("cat > /dev/null; echo 0; echo '? no such command'; echo yes{end}");
        assert_eq!(told(&does), None);
    }
    let does = "read a; read b; echo 0; read c; echo '? no such command'; read d; read e; echo yes; read f";
    assert_eq!(talked(&shell(does)), None);
}

#[test]
fn every_byte_of_the_scripts_arrives_in_order_whatever_the_lump() {
    for lump in [1, 2, 5, 1_000] {
        let scripts = [three(), afresh(), three()].map(|script| Script { lump, ..script });
        let input: Vec<u8> = scripts.iter().flat_map(Script::input).collect();
        assert_eq!(shell("cat").hear(&scripts).bytes, input);
    }
    let unended = Script { is_unended: true, ..three() };
    assert_eq!(shell("cat").hear(&[unended]).bytes, b"# a remark\nempty\nemptied\n  \ncheck");
}

#[test]
fn more_than_the_pipes_hold_goes_both_ways() {
    let long = "x".repeat(150);
    let lines = vec![long.as_str(); 10_000];
    assert_eq!(shell("cat").hear(&[script(&lines)]).bytes.len(), 1_510_000);
}

#[test]
fn what_goes_wrong_with_a_desk_is_told_at_its_line() {
    let at = |line, answered: &str| Some((line, answered.to_string()));
    assert_eq!(told("cat > /dev/null"), at(Some(2), "(nothing)"));
    assert_eq!(told("cat > /dev/null; exit 3"), at(Some(2), "(the desk ended with 3)"));
    assert_eq!(told("cat > /dev/null; echo 0; echo 0"), at(Some(3), "0"));
    assert_eq!(told("cat > /dev/null; printf 0"), at(Some(2), "0 (without a line feed)"));
    assert_eq!(told("cat > /dev/null; printf '0 \\377\\n'"), at(Some(2), "0 \\xff"));
    let right = "cat > /dev/null; echo 0; echo '? no such command'; echo yes";
    assert_eq!(told(&format!("{right}; echo yes")), at(None, "yes"));
    let (line, answered) = told(&format!("{right}; kill -9 $$")).expect("a difference");
    assert!(line.is_none() && answered.starts_with("(the desk died: "), "{answered}");
}

#[test]
fn a_desk_that_is_silent_for_too_long_is_told() {
    let patience = Duration::from_millis(200);
    let silent = End::Silent(patience);
    for does in ["exec sleep 1000", "exec >&-; exec sleep 1000"] {
        let desk = Desk { patience, ..shell(does) };
        assert_eq!(desk.hear(&[three()]).end, silent);
    }
    // All that it says, it says too late: it waits for the input's end.
    let kept_back = Desk { patience, ..shell("cat > /dev/null; echo 0") };
    assert_eq!(talked(&kept_back), Some((Some(2), format!("({silent})"))));
    assert_eq!(talked(&shell("read a; read b; echo 1")), Some((Some(2), "1".to_string())));
    assert_eq!(talked(&shell("read a")), Some((Some(2), "(nothing)".to_string())));
}

#[test]
fn an_answer_lost_at_the_end_of_the_input_is_found() {
    let mut found = 0;
    for ending in endings::all() {
        let answers = ending.lines.iter().filter(|line| line.foreseen != Foreseen::Nothing);
        let answers: String = answers.map(|line| format!("{}\n", line.foreseen)).collect();
        let end = End::Number(0);
        let heard = |answers: &str| Heard { bytes: answers.into(), end: end.clone() };
        let scripts = [ending];
        assert_eq!(first_difference(&scripts, &heard(&answers)), None);
        found += u32::from(first_difference(&scripts, &heard("")).is_some());
    }
    assert!(found > 20, "{found} endings");
}

fn wrong_at(line: usize) -> Option<Difference> {
    Some(Difference {
        script: 0,
        line: Some(line),
        foreseen: String::new(),
        answered: String::new(),
    })
}

/// Goes wrong at the first of these lines that comes after all those before it.
fn after_all(script: &Script, waited: &[&str]) -> Option<Difference> {
    let mut waited = waited.iter().peekable();
    for (nth, line) in script.lines.iter().enumerate() {
        waited.next_if(|text| line.text.starts_with(text.as_bytes()));
        if waited.peek().is_none() {
            return wrong_at(nth + 1);
        }
    }
    None
}

/// Some hundreds of lines among which a desk finds what it goes wrong at.
fn long_script() -> Script {
    let mut dice = Dice::seeded(11);
    let lines: Vec<String> = (0..700)
        .map(|_| match dice.below(3) {
            0 => format!("remove {} 64", dice.below(9)),
            _ => format!("stab 00{}\t", dice.below(9)),
        })
        .collect();
    let lines: Vec<&str> = lines.iter().map(String::as_str).collect();
    script(&lines)
}

fn texts(cut: &Cut) -> Vec<String> {
    let lines = cut.script.lines.iter();
    lines.map(|line| String::from_utf8_lossy(&line.text).into_owned()).collect()
}

#[test]
fn nothing_is_left_but_what_it_takes_within_the_bound() {
    let mut runs = 0;
    let mut differs = |script: &Script| {
        runs += 1;
        let plain = after_all(script, &["remove 3 64", "remove 5 64", "stab 7"]);
        plain.or_else(|| after_all(script, &["remove 3 64", "remove 5 64", "stab 007"]))
    };
    let given = long_script();
    let difference = differs(&given).expect("a difference");
    let made = cut(given, difference, &mut differs);
    assert_eq!(texts(&made), ["remove 3 64", "remove 5 64", "stab 7"]);
    assert_eq!((made.script.lump, made.difference), (usize::MAX, wrong_at(3).expect("one")));
    assert!(runs < 100, "{runs} runs");
    // Whatever it is given, it stops.
    let mut runs = 0;
    let never_shorter = cut(long_script(), wrong_at(700).expect("one"), |script| {
        runs += 1;
        (script.lines.len() == 700).then(|| wrong_at(700)).flatten()
    });
    assert_eq!(never_shorter.script.lines.len(), 700);
    assert_eq!(runs, MOST_RUNS);
}

#[test]
fn the_spelling_the_end_and_a_later_cause_are_kept_where_it_takes_them() {
    let by_tab = cut(long_script(), wrong_at(700).expect("one"), |script| {
        let tabs = script.lines.iter().position(|line| line.text.ends_with(b"\t"));
        tabs.map(|nth| wrong_at(nth + 1)).unwrap_or_default()
    });
    assert_eq!(texts(&by_tab).len(), 1);
    assert!(texts(&by_tab)[0].ends_with('\t'));
    let unended = Script { is_unended: true, ..long_script() };
    let by_end = cut(unended, wrong_at(700).expect("one"), |script| {
        let last = script.lines.len();
        (script.is_unended && last > 0).then(|| wrong_at(last)).flatten()
    });
    assert!(by_end.script.is_unended && by_end.script.lines.len() == 1);
    // A desk that dies at a stab of 7 and has then said nothing at all.
    let by_later = cut(long_script(), wrong_at(1).expect("one"), |script| {
        let is_cause = |text: &[u8]| text.starts_with(b"stab 007") || text == b"stab 7";
        script.lines.iter().any(|line| is_cause(&line.text)).then(|| wrong_at(1)).flatten()
    });
    assert_eq!(texts(&by_later), ["stab 7"]);
}

#[test]
fn a_difference_that_takes_an_earlier_life_is_cut_from_the_whole_session() {
    let session =
        [script(&["sum", "remove 3 64", "sum"]), afresh(), script(&["room", "check", "room"])];
    let difference = Difference { script: 2, ..wrong_at(2).expect("one") };
    let made =
        cut_session(&session, difference, |script| after_all(script, &["remove 3 64", "check"]));
    assert_eq!(texts(&made), ["remove 3 64", "check"]);
    let alone =
        cut_session(&session, Difference { script: 2, ..wrong_at(2).expect("one") }, |script| {
            after_all(script, &["check"])
        });
    assert_eq!(texts(&alone), ["check"]);
}

#[test]
fn what_is_cut_down_can_be_given_to_a_desk_as_it_is_printed() {
    let plain = Cut {
        script: Script { lump: usize::MAX, ..script(&["empty", "check"]) },
        difference: Difference {
            script: 0,
            line: Some(2),
            foreseen: "yes".to_string(),
            answered: "no".to_string(),
        },
    };
    assert_eq!(shown(&plain), "empty\ncheck\n# foreseen: yes\n# answered: no\n");
    let odd = Cut { script: script(&["empty\r", "100% \u{7f}-"]), ..plain };
    let remarks = "# foreseen: yes\n# answered: no\n# given 3 bytes at a time\n";
    let exactly = "# exactly: printf 'empty\\015\\n100%% \\177\\055\\n' | desk\n";
    assert_eq!(shown(&odd), format!("empty\\r\n100% \\x7f-\n{remarks}{exactly}"));
}

/// What the program prints, and the number that it ends with.
fn called(words: &str) -> (u8, String) {
    let words: Vec<String> = words.split_whitespace().map(String::from).collect();
    let mut out = Vec::new();
    let number = program(&words, &mut out).expect("a place to print to");
    (number, String::from_utf8_lossy(&out).into_owned())
}

#[test]
fn wrong_words_are_answered_by_the_usage_and_no_desk_by_a_sentence() {
    for words in ["", "a b", "a --seconds long", "a --kind none --seed 1", "a --kind few_keys"] {
        let (number, told) = called(words);
        assert_eq!(number, CALLED_WRONGLY);
        assert!(told.starts_with("usage: second DESK") && told.contains("few_keys"), "{told}");
    }
    let (number, told) = called("/no/such/desk");
    assert_eq!(number, CALLED_WRONGLY);
    assert!(told.starts_with("There is no desk at /no/such/desk: "), "{told}");
}

#[test]
fn a_difference_is_printed_cut_down() {
    // A desk that says every line back.
    let (number, told) = called("/bin/cat --kind few_marks --seed 0");
    assert_eq!(number, DIFFERENT);
    assert!(told.starts_with("A difference in --kind few_marks --seed 0, given whole, at line 1: "));
    assert!(told.contains("\nCut down to 1 lines:\n\nmemory "), "{told}");
    assert!(told.contains("\n# foreseen: 0\n# answered: memory "), "{told}");
}

#[test]
fn the_first_session_that_differs_is_told_and_the_others_are_counted() {
    // Sessions without lives: the input ends at once, in a check, and in one that returns.
    let bare: Vec<Session> = sessions(0).into_iter().rev().take(3).rev().collect();
    let account = run(&shell("read a && echo no || cat"), bare.clone().into_iter());
    let (scripts, difference) = account.different.expect("a difference");
    assert_eq!((scripts, difference.line), (bare[1].scripts(), Some(1)));
    let account = run(&shell("cat > /dev/null; echo yes"), bare[1..].iter().cloned());
    assert!(account.different.is_none());
    assert_eq!(account.kinds["ending"], (2, 2));
}
