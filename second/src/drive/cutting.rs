//! Cutting a script that differs down to a short one that still does.
//!
//! Everything is tried in a fixed order, so that the same desk is given the same scripts again
//! and a person finds the same few lines each time.

use super::comparing::Difference;
use crate::calls::reading::{line, read, Read};
use crate::desk::foreseer::Foreseer;
use crate::desk::form::Changes;
use crate::desk::script::{Line, Script};
use crate::desk::spelling::plain;

/// After so many runs of a desk cutting stops, even if more could go.
pub const MOST_RUNS: usize = 300;

/// A script that differs, and where it does.
#[derive(Clone, Debug, PartialEq, Eq)]
pub struct Cut {
    /// The script.
    pub script: Script,
    /// Its first difference.
    pub difference: Difference,
}

/// Cuts the script of a session that differs, if it does so alone, and else all of the session
/// up to it.
pub fn cut_session(
    scripts: &[Script],
    difference: Difference,
    mut differs: impl FnMut(&Script) -> Option<Difference>,
) -> Cut {
    let mut script = scripts[difference.script].clone();
    if let Some(difference) = differs(&script) {
        return cut(script, difference, differs);
    }
    let before = scripts[..difference.script].iter();
    let lines_before: Vec<Line> = before.flat_map(|script| script.lines.clone()).collect();
    let difference = Difference {
        script: 0,
        line: difference.line.map(|line| line + lines_before.len()),
        ..difference
    };
    script.lines.splice(0..0, lines_before);
    cut(script, difference, differs)
}

/// Cuts a script of which the first difference is known, by a way to tell where one differs.
pub fn cut(
    script: Script,
    difference: Difference,
    differs: impl FnMut(&Script) -> Option<Difference>,
) -> Cut {
    let mut cutter = Cutter { best: Cut { script, difference }, differs, runs_left: MOST_RUNS };
    cutter.drop_what_comes_after();
    cutter.write_plainly();
    cutter.drop_all_questions();
    cutter.drop_lines();
    for nth in 0..cutter.best.script.lines.len() {
        // Where not all lines could be written plainly, most of those that are left can.
        cutter.try_with(|script| script.lines.iter_mut().skip(nth).take(1).for_each(write_plainly));
    }
    cutter.best
}

/// The shortest script so far, which did differ when it was run, and what is left to try.
struct Cutter<F> {
    best: Cut,
    differs: F,
    runs_left: usize,
}

impl<F: FnMut(&Script) -> Option<Difference>> Cutter<F> {
    /// Takes the best script, changed, in its own place if it differs too.
    fn try_with(&mut self, change: impl FnOnce(&mut Script)) -> bool {
        let mut script = self.best.script.clone();
        change(&mut script);
        if self.runs_left == 0 || script == self.best.script {
            return false;
        }
        foresee_anew(&mut script);
        self.runs_left -= 1;
        let Some(difference) = (self.differs)(&script) else {
            return false;
        };
        self.best = Cut { script, difference };
        self.drop_what_comes_after();
        true
    }

    /// Ends the script at its first difference. A desk that died may have kept answers back,
    /// so that the cause comes later: then the end stays. Only if the difference is in the last
    /// line does the script still end as it did.
    fn drop_what_comes_after(&mut self) {
        let lines = self.best.script.lines.len();
        let length = self.best.difference.line.unwrap_or(lines);
        if length < lines {
            self.try_with(|script| {
                script.lines.truncate(length);
                script.is_unended = false;
            });
        }
    }

    /// The plainest way to hand the script over: at once, with all line feeds, and in the
    /// plainest writing of every command.
    fn write_plainly(&mut self) {
        self.try_with(|script| script.lump = usize::MAX);
        self.try_with(|script| script.is_unended = false);
        self.try_with(|script| script.lines.iter_mut().for_each(write_plainly));
    }

    /// Most lines of a life only ask, and what they ask changes nothing.
    fn drop_all_questions(&mut self) {
        self.try_with(|script| {
            let last = script.lines.pop();
            script.lines.retain(|line| !only_asks(line));
            script.lines.extend(last);
        });
    }

    /// Drops ever smaller runs of lines, and single lines until none can go.
    fn drop_lines(&mut self) {
        let mut length = self.best.script.lines.len();
        while length > 1 {
            length = length.min(self.best.script.lines.len()).div_ceil(2);
            while self.drop_runs(length) && length == 1 {}
        }
    }

    /// Drops what can go of the runs of this length, the last one first. Whether any went.
    fn drop_runs(&mut self, length: usize) -> bool {
        let mut dropped = false;
        let mut end = self.best.script.lines.len();
        while end > 0 {
            let start = end.saturating_sub(length);
            dropped |= self.try_with(|script| drop(script.lines.drain(start..end)));
            end = start.min(self.best.script.lines.len());
        }
        dropped
    }
}

/// What is foreseen of the lines of a script, after some of them are gone or written otherwise.
pub fn foresee_anew(script: &mut Script) {
    let mut desk = Foreseer::new();
    for each in &mut script.lines {
        *each = line(std::mem::take(&mut each.text), &mut desk);
    }
}

/// Writes a command in the plainest way.
fn write_plainly(line: &mut Line) {
    if let Read::Command(command) = read(&line.text) {
        line.text = plain(&command);
    }
}

/// Whether a line can change nothing, right or wrong.
fn only_asks(line: &Line) -> bool {
    match read(&line.text) {
        Read::Command(command) => command.form.changes == Changes::Nothing,
        _ => true,
    }
}
