//! What an answer must be.

use crate::paper::refusals::Refusal;
use std::borrow::Cow;
use std::fmt;

/// What an answer shows, as the tally counts it: its first word, or one ground of several, or
/// one of a few things told, or all that is wrong with a line.
pub type Sight = Cow<'static, str>;

/// What is foreseen of one line.
#[derive(Clone, Debug, PartialEq, Eq)]
pub enum Foreseen {
    /// No line is written: the line was blank or a remark.
    Nothing,
    /// This line, and what it shows.
    Exactly(Cow<'static, str>, Sight),
    /// A line whose first word is one of these: the paper leaves the rest open.
    Begins(&'static [&'static str]),
}

impl Foreseen {
    /// Done, with no more to say.
    pub const DONE: Foreseen = Foreseen::Exactly(Cow::Borrowed("0"), Cow::Borrowed("0"));

    /// Done, with this to say after the 0.
    pub fn told(values: fmt::Arguments<'_>) -> Foreseen {
        Foreseen::Exactly(format!("0 {values}").into(), "0".into())
    }

    /// An answer that is counted by all of its words.
    pub fn whole(answer: &'static str) -> Foreseen {
        Foreseen::Exactly(answer.into(), answer.into())
    }

    /// Refused, and counted by the number.
    pub fn refused(refusal: Refusal) -> Foreseen {
        Foreseen::Exactly(refusal.to_string().into(), refusal.number().into())
    }

    /// The same answer, counted as this.
    pub fn counted_as(self, sight: impl Into<Sight>) -> Foreseen {
        match self {
            Foreseen::Exactly(answer, _) => Foreseen::Exactly(answer, sight.into()),
            other => other,
        }
    }

    /// Whether a call is done.
    pub fn is_done(&self) -> bool {
        matches!(self, Foreseen::Exactly(answer, _) if answer.split(' ').next() == Some("0"))
    }

    /// Whether a line that was written is as foreseen.
    pub fn is_met_by(&self, line: &[u8]) -> bool {
        match self {
            Foreseen::Nothing => false,
            Foreseen::Exactly(answer, _) => answer.as_bytes() == line,
            Foreseen::Begins(words) => {
                let first = line.split(|&byte| byte == b' ').next();
                line.is_ascii() && words.iter().any(|word| first == Some(word.as_bytes()))
            }
        }
    }
}

impl fmt::Display for Foreseen {
    fn fmt(&self, out: &mut fmt::Formatter<'_>) -> fmt::Result {
        match self {
            Foreseen::Nothing => out.write_str("(nothing)"),
            Foreseen::Exactly(answer, _) => out.write_str(answer),
            Foreseen::Begins(words) => {
                write!(out, "(a line that begins with {})", words.join(" or "))
            }
        }
    }
}

/// The answer of a call that is refused or done.
impl From<Result<(), Refusal>> for Foreseen {
    fn from(answer: Result<(), Refusal>) -> Foreseen {
        answer.map_or_else(Foreseen::refused, |()| Foreseen::DONE)
    }
}
