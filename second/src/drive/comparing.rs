//! Holding a desk's answers against what is foreseen, line by line.

use super::process::{End, Heard};
use crate::desk::foreseen::Foreseen;
use crate::desk::script::Script;

/// The first place where answers are not as foreseen.
#[derive(Clone, Debug, PartialEq, Eq)]
pub struct Difference {
    /// Which of the scripts it is in, from 0.
    pub script: usize,
    /// The number of the line, from 1; none past the last line of all.
    pub line: Option<usize>,
    /// What is foreseen, in words.
    pub foreseen: String,
    /// What was answered, in words.
    pub answered: String,
}

/// The first difference in what was heard of these scripts.
pub fn first_difference(scripts: &[Script], heard: &Heard) -> Option<Difference> {
    let mut answers = heard.bytes.split_inclusive(|&byte| byte == b'\n');
    for (script, lines) in scripts.iter().map(|script| &script.lines).enumerate() {
        for (nth, line) in lines.iter().enumerate() {
            if line.foreseen == Foreseen::Nothing {
                continue;
            }
            let answer = answers.next();
            let ended = answer.and_then(|answer| answer.strip_suffix(b"\n"));
            if !ended.is_some_and(|answer| line.foreseen.is_met_by(answer)) {
                return Some(Difference {
                    script,
                    line: Some(nth + 1),
                    foreseen: line.foreseen.to_string(),
                    answered: in_words(answer, &heard.end),
                });
            }
        }
    }
    // After the last line: an answer too many, or a desk that does not end as programs do.
    let answer = answers.next();
    let is_well = answer.is_none() && matches!(heard.end, End::Number(_));
    (!is_well).then(|| Difference {
        script: scripts.len().saturating_sub(1),
        line: None,
        foreseen: Foreseen::Nothing.to_string(),
        answered: in_words(answer, &heard.end),
    })
}

/// What was answered, or why nothing was.
pub fn in_words(answer: Option<&[u8]>, end: &End) -> String {
    match answer.map(|answer| (answer, answer.strip_suffix(b"\n"))) {
        Some((_, Some(line))) => one_line(line),
        Some((unended, None)) => format!("{} (without a line feed)", one_line(unended)),
        None if *end == End::Number(0) => "(nothing)".to_string(),
        None => format!("({end})"),
    }
}

/// Bytes as one line that can be printed: what is not plain text is written with `\`.
pub fn one_line(bytes: &[u8]) -> String {
    let escaped = bytes.iter().map(|&byte| match byte {
        b'\\' | b'\'' | b'"' => char::from(byte).to_string(),
        _ => byte.escape_ascii().to_string(),
    });
    escaped.collect()
}
