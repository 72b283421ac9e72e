//! The model says what the documents say: the answers that stand in `examples` and beside the
//! desk, the words of `docs/MEMORY.md`, and the tables of `docs/DESK.md`.

use crate::calls::reading::{line, read, Read};
use crate::calls::FORMS;
use crate::desk::foreseen::Foreseen;
use crate::desk::foreseer::Foreseer;
use crate::desk::form::numbers;
use crate::drive::tally::expected;
use crate::memory::words::Slice;
use crate::paper::refusals::*;
use crate::paper::wheel::turned;
use std::collections::BTreeSet;
use std::path::{Path, PathBuf};

fn in_repository(path: &str) -> PathBuf {
    Path::new(env!("CARGO_MANIFEST_DIR")).join("..").join(path)
}

fn text_of(path: &Path) -> Vec<u8> {
    std::fs::read(path).unwrap_or_else(|why| panic!("{}: {why}", path.display()))
}

/// The lines of an input must be answered by these.
fn assert_foreseen(input: &[u8], answers: &[&[u8]]) {
    let mut desk = Foreseer::new();
    let mut answers = answers.iter();
    for text in input.strip_suffix(b"\n").unwrap_or(input).split(|&byte| byte == b'\n') {
        let line = line(text.to_vec(), &mut desk);
        if line.foreseen != Foreseen::Nothing {
            let answer = answers.next().expect("an answer");
            let (text, foreseen) = (text.escape_ascii(), &line.foreseen);
            assert!(foreseen.is_met_by(answer), "{text}: {foreseen}, {}", answer.escape_ascii());
        }
    }
    assert_eq!(answers.next(), None);
}

#[test]
fn the_examples_are_answered_as_they_are_written() {
    let files = std::fs::read_dir(in_repository("examples")).expect("examples");
    let files = files.map(|file| file.expect("a file").path());
    let examples: Vec<PathBuf> =
        files.filter(|path| path.extension().is_some_and(|end| end == "desk")).collect();
    assert!(examples.len() >= 2);
    for example in examples {
        let text = text_of(&example);
        let lines = text.split(|&byte| byte == b'\n');
        let answers: Vec<&[u8]> = lines.filter_map(|line| line.strip_prefix(b"#> ")).collect();
        assert_foreseen(&text, &answers);
    }
}

/// Every band takes two levels, the low end's first, and one that is refused leaves them to
/// the next.
#[test]
fn the_morning_takes_every_level_from_the_wheel_in_turn() {
    let text = text_of(&in_repository("examples/morning.desk"));
    let mut desk = Foreseer::new();
    let (mut place, mut told, mut bands) = (1, Vec::new(), 0);
    for line in text.split(|&byte| byte == b'\n') {
        let Read::Command(command) = read(line) else {
            continue;
        };
        let is_done = command.foresee(&mut desk).is_done();
        match command.form.name {
            "wheel" => {
                assert_eq!(numbers(&command.words), [place], "{}", line.escape_ascii());
                let turn = turned(place).expect("a place");
                told.push(turn.level);
                place = turn.next;
            }
            "insert" => {
                let [_, _, low, high] = numbers(&command.words);
                assert!(told.starts_with(&[low, high]), "{}", line.escape_ascii());
                if is_done {
                    told.drain(..2);
                    bands += 1;
                }
            }
            _ => {}
        }
    }
    assert!(told.is_empty(), "{} levels asked for and not used", told.len());
    assert_eq!(bands, 14);
}

#[test]
fn the_desks_own_script_is_answered_as_it_is_recorded() {
    let input = text_of(&in_repository("crates/desk/stdin"));
    let output = text_of(&in_repository("crates/desk/stdout"));
    let answers: Vec<&[u8]> =
        output.strip_suffix(b"\n").expect("an end").split(|&byte| byte == b'\n').collect();
    assert_foreseen(&input, &answers);
}

#[test]
fn the_memorys_example_word_for_word() {
    let mut desk = Foreseer::new();
    for command in ["memory 2 3", "empty", "insert 1 0 [100,400) 1 2"] {
        assert!(line(command.into(), &mut desk).foreseen.is_done());
    }
    let words = desk.lending().words();
    let document = String::from_utf8(text_of(&in_repository("docs/MEMORY.md"))).expect("text");
    let mut slice = Slice::Bands;
    let mut rows = 0;
    for row in document.lines().filter(|line| line.starts_with("    ")) {
        for (name, named) in
            [("bands", Slice::Bands), ("nodes", Slice::Nodes), ("marks", Slice::Marks)]
        {
            if row.trim_start().starts_with(name) {
                slice = named;
            }
        }
        let (first, numbers) = row.split_once(':').expect("an index");
        let first: usize =
            first.split_whitespace().last().expect("an index").parse().expect("a number");
        let numbers = numbers.split_whitespace().map_while(|word| word.parse().ok());
        let numbers: Vec<u32> = numbers.collect();
        assert_eq!(words.of(slice)[first..first + numbers.len()], numbers, "{row}");
        rows += 1;
    }
    assert_eq!(rows, 5);
}

/// What stands in the first code of each row of a table of `docs/DESK.md`.
fn first_codes(section: &str) -> Vec<String> {
    let document = String::from_utf8(text_of(&in_repository("docs/DESK.md"))).expect("text");
    let rows = document.split("\n## ").find_map(|part| part.strip_prefix(section));
    let rows = rows.expect("a section").lines();
    let code = |row: &str| Some(row.strip_prefix("| `")?.split('`').next()?.to_string());
    rows.filter_map(code).collect()
}

#[test]
fn commands_take_as_many_words_as_the_table_says_and_in_its_order() {
    let ours = FORMS.iter().map(|form| (form.name.to_string(), form.takes.len()));
    let theirs = first_codes("Commands\n").into_iter().map(|code| {
        let is_name = |word: &&str| word.chars().all(char::is_lowercase);
        let words: Vec<&str> = code.split(' ').collect();
        let name: Vec<&str> = words.iter().copied().take_while(is_name).collect();
        (name.join(" "), words.len() - name.len())
    });
    assert_eq!(ours.collect::<Vec<_>>(), theirs.collect::<Vec<_>>());
}

#[test]
fn what_can_be_wrong_with_a_line_is_what_the_table_says() {
    let ours = expected().into_iter().flat_map(|(_, answers)| answers);
    let ours: BTreeSet<&str> = ours.filter(|answer| answer.starts_with('?')).collect();
    let theirs = first_codes("What is wrong with a line\n");
    assert_eq!(ours, theirs.iter().map(String::as_str).collect());
}

#[test]
fn refusals_are_told_in_the_words_of_the_table() {
    let ours = [
        SIZES_OR_NOT_SOUND,
        SCOPE_TOO_HIGH,
        NUMBER_TOO_HIGH,
        KEY_TOO_HIGH,
        NO_WHOLE_KEY,
        END_OUT_OF_SCOPE,
        WRONG_LEVEL_OR_PLACE,
        NUMBER_TAKEN,
        NUMBER_NOT_LIVE,
        SCOPE_IS_ANOTHER,
        NODES_EXCEED,
        MARKS_EXCEED,
        NO_NODE_OR_LANE,
    ];
    assert_eq!(ours.map(|refusal| refusal.to_string()).to_vec(), first_codes("Refusals\n"));
}
