//! Talking with a desk: one line at a time, and no line before the last one is answered.
//!
//! "Lines" in `docs/DESK.md` says that answers are written out before the desk waits for
//! input. A script that is handed over whole cannot show that, since it never waits.

use super::comparing::{in_words, Difference};
use super::process::{kill, listen, Desk, End};
use crate::desk::foreseen::Foreseen;
use crate::desk::script::Script;
use std::io::Write;
use std::sync::mpsc::{Receiver, RecvTimeoutError};
use std::time::Duration;

/// Talks through scripts; the first answer that is wrong or does not come.
pub fn first_difference_talked(desk: &Desk, scripts: &[Script]) -> Option<Difference> {
    let (mut child, mut input, output) = match desk.start() {
        Ok(started) => started,
        Err(why) => {
            return Some(difference(0, None, &Foreseen::Nothing, Err(End::NotStarted(why))))
        }
    };
    let heard = listen(output);
    let mut bytes = Vec::new();
    let mut found = None;
    'talk: for (nth, script) in scripts.iter().enumerate() {
        for (line_nth, line) in script.lines.iter().enumerate() {
            // A desk that reads no further will not answer, which tells it.
            let _ = input.write_all(&[&line.text[..], b"\n"].concat());
            if line.foreseen == Foreseen::Nothing {
                continue;
            }
            let answer = next_answer(&heard, &mut bytes, desk.patience);
            let is_met = |answer: &Vec<u8>| line.foreseen.is_met_by(&answer[..answer.len() - 1]);
            if !answer.as_ref().is_ok_and(is_met) {
                found = Some(difference(nth, Some(line_nth + 1), &line.foreseen, answer));
                break 'talk;
            }
        }
    }
    // Everything is said, so what the desk still does is no matter here.
    kill(&mut child);
    found
}

fn difference(
    script: usize,
    line: Option<usize>,
    foreseen: &Foreseen,
    answer: Result<Vec<u8>, End>,
) -> Difference {
    Difference {
        script,
        line,
        foreseen: foreseen.to_string(),
        answered: match answer {
            Ok(answer) => in_words(Some(&answer), &End::Number(0)),
            Err(end) => in_words(None, &end),
        },
    }
}

/// The next line that the desk writes, with its line feed.
fn next_answer(
    heard: &Receiver<Vec<u8>>,
    bytes: &mut Vec<u8>,
    patience: Duration,
) -> Result<Vec<u8>, End> {
    loop {
        if let Some(end) = bytes.iter().position(|&byte| byte == b'\n') {
            return Ok(bytes.drain(..=end).collect());
        }
        match heard.recv_timeout(patience) {
            Ok(piece) => bytes.extend(piece),
            Err(RecvTimeoutError::Disconnected) => return Err(End::Number(0)),
            Err(RecvTimeoutError::Timeout) => return Err(End::Silent(patience)),
        }
    }
}
