//! Running many sessions, a few at a time.

use super::comparing::{first_difference, Difference};
use super::process::Desk;
use super::sessions::Session;
use super::tally::Tally;
use crate::desk::script::Script;
use std::collections::BTreeMap;
use std::sync::Mutex;
use std::thread;

/// More would take much memory.
const MOST_WORKERS: usize = 4;

/// What came of the sessions so far.
#[derive(Default)]
pub struct Account {
    /// How many lives of each kind there were, and how many answers were as foreseen.
    pub kinds: BTreeMap<&'static str, (u64, usize)>,
    /// What was answered how often.
    pub tally: Tally,
    /// The scripts of the first session that differs, and where it does.
    pub different: Option<(Vec<Script>, Difference)>,
}

/// The sessions that are still to come, the account, and the number of the session that
/// differs.
struct Work<I> {
    sessions: I,
    account: Account,
    differs_at: usize,
}

/// Runs the sessions. After a difference no further one is begun; they are begun in order and
/// always finished, so that the first difference there is comes out, however they keep pace.
pub fn run(desk: &Desk, sessions: impl Iterator<Item = Session> + Send) -> Account {
    let processors = thread::available_parallelism().map_or(2, |many| many.get());
    let work = Mutex::new(Work {
        sessions: sessions.enumerate(),
        account: Account::default(),
        differs_at: usize::MAX,
    });
    thread::scope(|scope| {
        for _ in 0..processors.min(MOST_WORKERS) {
            scope.spawn(|| run_one_by_one(desk, &work));
        }
    });
    work.into_inner().expect("no worker panicked").account
}

fn run_one_by_one<I: Iterator<Item = (usize, Session)>>(desk: &Desk, work: &Mutex<Work<I>>) {
    let next = || {
        let mut work = work.lock().expect("no worker panicked");
        let goes_on = work.account.different.is_none();
        goes_on.then(|| work.sessions.next()).flatten()
    };
    while let Some((nth, session)) = next() {
        let scripts = session.scripts();
        let difference = first_difference(&scripts, &desk.hear(&scripts));
        let mut work = work.lock().expect("no worker panicked");
        match difference {
            None => work.account.add(&scripts),
            Some(difference) if nth < work.differs_at => {
                work.differs_at = nth;
                work.account.different = Some((scripts, difference));
            }
            Some(_) => {}
        }
    }
}

impl Account {
    /// Takes in scripts that were answered as foreseen.
    fn add(&mut self, scripts: &[Script]) {
        for script in scripts {
            let (lives, answers) = self.kinds.entry(script.kind).or_default();
            *lives += 1;
            *answers += script.answers();
            self.tally.count(script);
        }
    }
}
