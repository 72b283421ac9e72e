//! The second program: what its command line asks, and what it prints.

use super::comparing::{first_difference, one_line, Difference};
use super::cutting::cut_session;
use super::process::{kill, Desk};
use super::running::{run, Account};
use super::sessions::{sessions, talked};
use super::showing::shown;
use super::talking::first_difference_talked;
use crate::desk::script::Script;
use crate::lives::kind::Kind;
use crate::lives::KINDS;
use std::io::{Result, Write};
use std::time::{Duration, Instant};

/// Nothing differs and nothing is missing.
pub const FINE: u8 = 0;
/// Something differs, or was never seen.
pub const DIFFERENT: u8 = 1;
/// It was called wrongly, or there is no desk.
pub const CALLED_WRONGLY: u8 = 2;

const USAGE: &str = "\
usage: second DESK [--seconds T]
       second DESK --kind NAME --seed S

  DESK            the desk to hold against the paper's rules
  --seconds T     go on with further seeds until T seconds are over
  --kind, --seed  run one life only";

/// Does what the words ask, prints what comes of it, and gives the number to end with.
pub fn program(words: &[String], out: &mut impl Write) -> Result<u8> {
    let words: Vec<&str> = words.iter().map(String::as_str).collect();
    match words[..] {
        [path] => with_desk(path, out, |desk, out| run_all(desk, Duration::ZERO, out)),
        [path, "--seconds", seconds] => match seconds.parse().map(Duration::from_secs) {
            Ok(time) => with_desk(path, out, |desk, out| run_all(desk, time, out)),
            Err(_) => tell_usage(out),
        },
        [path, "--kind", name, "--seed", seed] => {
            let kind = KINDS.iter().find(|kind| kind.name == name);
            match (kind, seed.parse()) {
                (Some(kind), Ok(seed)) => {
                    with_desk(path, out, |desk, out| run_one(desk, kind, seed, out))
                }
                _ => tell_usage(out),
            }
        }
        _ => tell_usage(out),
    }
}

/// Does it with the desk at the path, if there is one that can be started.
fn with_desk<W: Write>(
    path: &str,
    out: &mut W,
    run: impl FnOnce(&Desk, &mut W) -> Result<u8>,
) -> Result<u8> {
    let desk = Desk::at(path);
    match desk.start() {
        Ok((mut child, ..)) => {
            kill(&mut child);
            run(&desk, out)
        }
        Err(why) => {
            writeln!(out, "There is no desk at {path}: {why}.")?;
            Ok(CALLED_WRONGLY)
        }
    }
}

fn tell_usage(out: &mut impl Write) -> Result<u8> {
    writeln!(out, "{USAGE}\n\nkinds:")?;
    for kind in KINDS {
        writeln!(out, "  {:<16} {}", kind.name, kind.says)?;
    }
    Ok(CALLED_WRONGLY)
}

/// Runs every kind for one round, and further rounds until the time is over; then talks.
fn run_all(desk: &Desk, time: Duration, out: &mut impl Write) -> Result<u8> {
    let started = Instant::now();
    let goes_on = move |round| round == 0 || started.elapsed() < time;
    let rounds = (0..).take_while(move |&round| goes_on(round));
    let of_round = move |round| sessions(round).into_iter().take_while(move |_| goes_on(round));
    let account = run(desk, rounds.flat_map(of_round));
    if let Some((scripts, difference)) = account.different {
        return tell(desk, Manner::Whole, &scripts, difference, out);
    }
    let talked = talked();
    if let Some(difference) = Manner::LineByLine.first_difference(desk, &talked) {
        return tell(desk, Manner::LineByLine, &talked, difference, out);
    }
    conclude(&account, out)
}

/// Prints what was run and seen, and the last line if there is nothing to complain about.
fn conclude(account: &Account, out: &mut impl Write) -> Result<u8> {
    for kind in KINDS {
        let (lives, answers) = account.kinds.get(kind.name).copied().unwrap_or_default();
        writeln!(out, "{:<16} {lives} lives, {answers} answers", kind.name)?;
    }
    write!(out, "\n{}", account.tally)?;
    let complaints = account.tally.complaints();
    for complaint in &complaints {
        writeln!(out, "{complaint}")?;
    }
    if !complaints.is_empty() {
        return Ok(DIFFERENT);
    }
    let answers: usize = account.kinds.values().map(|(_, answers)| answers).sum();
    writeln!(out, "\n{answers} answers compared, no difference")?;
    Ok(FINE)
}

/// Runs one life in both manners.
fn run_one(desk: &Desk, kind: &Kind, seed: u64, out: &mut impl Write) -> Result<u8> {
    let life = [kind.script(seed)];
    for manner in [Manner::Whole, Manner::LineByLine] {
        if let Some(difference) = manner.first_difference(desk, &life) {
            return tell(desk, manner, &life, difference, out);
        }
    }
    writeln!(out, "{} answers compared, no difference", life[0].answers())?;
    Ok(FINE)
}

/// In which manner a desk is given lines.
#[derive(Clone, Copy)]
enum Manner {
    Whole,
    LineByLine,
}

impl Manner {
    fn first_difference(self, desk: &Desk, scripts: &[Script]) -> Option<Difference> {
        match self {
            Manner::Whole => first_difference(scripts, &desk.hear(scripts)),
            Manner::LineByLine => first_difference_talked(desk, scripts),
        }
    }
}

/// Cuts down what differs and prints it.
fn tell(
    desk: &Desk,
    manner: Manner,
    scripts: &[Script],
    difference: Difference,
    out: &mut impl Write,
) -> Result<u8> {
    let Script { kind, seed, lines, .. } = &scripts[difference.script];
    let place = match difference.line {
        Some(line) => format!("line {line}: {}", one_line(&lines[line - 1].text)),
        None => "after the last line".to_string(),
    };
    let given = match manner {
        Manner::Whole => "given whole",
        Manner::LineByLine => "given line by line",
    };
    writeln!(out, "A difference in --kind {kind} --seed {seed}, {given}, at {place}")?;
    let differs = |script: &Script| manner.first_difference(desk, std::slice::from_ref(script));
    let cut = cut_session(scripts, difference, differs);
    let lines = cut.script.lines.len();
    writeln!(out, "Cut down to {lines} lines:\n\n{}", shown(&cut))?;
    Ok(DIFFERENT)
}
