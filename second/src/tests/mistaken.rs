//! A desk in this program with an error planted in it, and the life that finds the error.

use crate::calls::reading::{read, Read};
use crate::desk::foreseen::Foreseen;
use crate::desk::foreseer::Foreseer;
use crate::desk::form::Command;
use crate::desk::script::Script;
use crate::drive::comparing::Difference;
use crate::drive::cutting::{cut, Cut};
use crate::lives::KINDS;

/// What a mistaken desk makes of a line: nothing where the error is not in it.
pub type Mistake<'a> = &'a dyn Fn(&Read, &mut Foreseer) -> Option<Foreseen>;

/// Lives of so few seeds have to be enough.
const SEEDS: u64 = 3;

/// The first difference that the mistake makes in a script.
fn first_difference(script: &Script, mistake: Mistake) -> Option<Difference> {
    let mut desk = Foreseer::new();
    for (nth, line) in script.lines.iter().enumerate() {
        let asked = read(&line.text);
        let answered = mistake(&asked, &mut desk).unwrap_or_else(|| match asked {
            Read::Unanswered => Foreseen::Nothing,
            Read::Command(command) => command.foresee(&mut desk),
            Read::Wrong(_, answer) => Foreseen::whole(answer),
        });
        let is_met = match &answered {
            Foreseen::Exactly(answer, _) => line.foreseen.is_met_by(answer.as_bytes()),
            other => *other == line.foreseen,
        };
        if !is_met {
            return Some(Difference {
                script: 0,
                line: Some(nth + 1),
                foreseen: line.foreseen.to_string(),
                answered: answered.to_string(),
            });
        }
    }
    None
}

/// The first life of these kinds that shows the mistake, and where.
pub fn found(kinds: &[&str], mistake: Mistake) -> Option<(Script, Difference)> {
    let of_seed = |seed| {
        let lives = kinds.iter().map(move |name| {
            let kind = KINDS.iter().find(|kind| kind.name == *name);
            kind.expect("a kind").script(seed)
        });
        let mut found = lives.filter_map(|life| Some((first_difference(&life, mistake)?, life)));
        found.next()
    };
    let (difference, life) = (0..SEEDS).find_map(of_seed)?;
    Some((life, difference))
}

/// The mistake is found by lives of these kinds, and cut down to so few lines.
pub fn assert_bites(name: &str, kinds: &[&str], most_lines: usize, mistake: Mistake) {
    let (life, difference) = found(kinds, mistake).unwrap_or_else(|| panic!("{name}: not found"));
    let differs = |script: &Script| first_difference(script, mistake);
    let Cut { script, difference } = cut(life, difference, differs);
    let lines = script.lines.len();
    assert_eq!(difference.line, Some(lines), "{name}");
    let texts = script.lines.iter().map(|line| line.text.escape_ascii().to_string());
    let texts: Vec<String> = texts.collect();
    println!("{name}: {texts:#?} {}", difference.answered);
    assert!(lines <= most_lines, "{name}: {lines} lines");
}

/// A mistake in commands of this name.
pub fn at<'a>(
    name: &'a str,
    does: impl Fn(&Command, &mut Foreseer) -> Foreseen + 'a,
) -> impl Fn(&Read, &mut Foreseer) -> Option<Foreseen> + 'a {
    move |asked, desk| match asked {
        Read::Command(command) if command.form.name == name => Some(does(command, desk)),
        _ => None,
    }
}

/// The answer with its text altered.
pub fn altered(answer: Foreseen, alter: impl FnOnce(String) -> String) -> Foreseen {
    match answer {
        Foreseen::Exactly(text, sight) => Foreseen::Exactly(alter(text.into_owned()).into(), sight),
        other => other,
    }
}
