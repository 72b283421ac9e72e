//! What was answered how often, so that no refusal goes untried.
//!
//! Only answers that the paper settles are counted, and only where they were as foreseen.

use crate::calls::reading::{
    wrongs_of, LINE_TOO_LONG, NO_SUCH_COMMAND, TOO_MANY_WORDS, WORD_MISSING,
};
use crate::calls::FORMS;
use crate::desk::foreseen::{Foreseen, Sight};
use crate::desk::form::Form;
use crate::desk::script::{Script, OTHER};
use std::collections::{BTreeMap, BTreeSet};
use std::fmt;

/// How often each answer was seen, by what it is counted under.
#[derive(Clone, Debug, Default)]
pub struct Tally(BTreeMap<&'static str, BTreeMap<Sight, u64>>);

impl Tally {
    /// Counts the answers to a script.
    pub fn count(&mut self, script: &Script) {
        for line in &script.lines {
            if let Foreseen::Exactly(_, sight) = &line.foreseen {
                let seen = self.0.entry(line.name).or_default();
                match seen.get_mut(sight) {
                    Some(times) => *times += 1,
                    None => drop(seen.insert(sight.clone(), 1)),
                }
            }
        }
    }

    /// What was never seen though it can be, and what was seen though neither the paper nor
    /// `docs/DESK.md` knows it.
    pub fn complaints(&self) -> Vec<String> {
        let mut complaints = Vec::new();
        for (name, expected) in expected() {
            let seen: BTreeSet<&str> = self.seen(name).map(|(sight, _)| sight).collect();
            let missing = expected.difference(&seen);
            let strange = seen.difference(&expected);
            complaints
                .extend(missing.map(|answer| format!("never seen: {name} answered {answer}")));
            complaints.extend(strange.map(|answer| format!("not known: {name} answered {answer}")));
        }
        complaints
    }

    /// What was seen under a name, and how often.
    fn seen(&self, name: &str) -> impl Iterator<Item = (&str, u64)> {
        let seen = self.0.get(name).into_iter().flatten();
        seen.map(|(sight, &times)| (sight.as_ref(), times))
    }
}

/// Everything that must be seen at least once, by what it is counted under.
pub fn expected() -> Vec<(&'static str, BTreeSet<&'static str>)> {
    let of_form = |form: &&'static Form| {
        let mut expected: BTreeSet<&str> = form.answers.iter().copied().collect();
        expected.insert(TOO_MANY_WORDS);
        if !form.takes.is_empty() {
            expected.insert(WORD_MISSING);
        }
        expected.extend(form.takes.iter().copied().flat_map(wrongs_of));
        (form.name, expected)
    };
    // A word can be missing behind the first of two that make a name.
    let other = BTreeSet::from([LINE_TOO_LONG, NO_SUCH_COMMAND, WORD_MISSING]);
    FORMS.iter().map(of_form).chain([(OTHER, other)]).collect()
}

impl fmt::Display for Tally {
    fn fmt(&self, out: &mut fmt::Formatter<'_>) -> fmt::Result {
        for (name, _) in expected() {
            let seen = self.seen(name);
            let seen: Vec<String> =
                seen.map(|(sight, times)| format!("{sight}: {times}")).collect();
            writeln!(out, "{name:<10} {}", seen.join(", "))?;
        }
        Ok(())
    }
}
