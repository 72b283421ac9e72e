//! The bench card: a plain scan over a list of records for one key ("What is built", "When the
//! box says no"), and the list that the desk keeps.

use super::stab::bands;
use crate::desk::foreseen::Foreseen;
use crate::desk::form::{band, numbers, Changes, Command, Form, Sort, Word};
use crate::paper::band::Band;
use crate::paper::hall::judge_key;
use crate::paper::refusals::{refuse_when, Refusal, NUMBER_TAKEN};
use std::collections::BTreeSet;

/// How many records the desk has places for: more than there are band numbers, so that a
/// number too many can be seen refused.
pub const MOST_RECORDS: usize = 1_100;

/// Leaves the card without a record.
pub static CLEAR: Form = Form {
    name: "card clear",
    takes: &[],
    changes: Changes::Desk,
    foresee: |desk, _| {
        desk.card.clear();
        Foreseen::DONE
    },
    answers: &["0"],
};

/// Gives the card one record more, right or wrong.
pub static ADD: Form = Form {
    name: "card add",
    takes: &[Sort::BandNumber, Sort::Scope, Sort::Stretch],
    changes: Changes::Desk,
    foresee: |desk, words| {
        if desk.card.len() == MOST_RECORDS {
            return Foreseen::whole(CARD_FULL);
        }
        desk.card.push(band(words));
        Foreseen::DONE
    },
    answers: &["0", CARD_FULL],
};

/// Scans the card for a key.
pub static SCAN: Form = Form {
    name: "card scan",
    takes: &[Sort::Key],
    changes: Changes::Nothing,
    foresee: |desk, words| {
        let [key] = numbers(words);
        told(scanned(&desk.card, key), desk.card.len())
    },
    #[rustfmt::skip]
    answers: &[
        "0", FOR_THE_KEY,
        "2 at the only place", "2 at the first place", "2 at a place between", "2 at the last place",
        "3 at the only place", "3 at the first place", "3 at a place between", "3 at the last place",
        "4 at the only place", "4 at the first place", "4 at a place between", "4 at the last place",
        "5 at the only place", "5 at the first place", "5 at a place between", "5 at the last place",
        "6 at the only place", "6 at the first place", "6 at a place between", "6 at the last place",
        "8 at the only place", "8 at the first place", "8 at a place between", "8 at the last place",
    ],
};

const CARD_FULL: &str = "? card full";
const FOR_THE_KEY: &str = "4 for the key";

/// Asks for the card to be cleared.
pub fn card_clear() -> Command {
    CLEAR.with([])
}

/// Asks for one record more.
pub fn card_add(record: Band) -> Command {
    ADD.with(Word::of_band(record))
}

/// Asks for a scan.
pub fn card_scan(key: u32) -> Command {
    SCAN.with([Word::Key(key)])
}

/// The numbers of the records that hold the key, or the refusal and the first bad place,
/// counted from 1; 0 where the key is bad, which is judged first.
pub type Scanned = Result<BTreeSet<u32>, (Refusal, usize)>;

/// Scans the records for a key.
pub fn scanned(records: &[Band], key: u32) -> Scanned {
    judge_key(key).map_err(|refusal| (refusal, 0))?;
    for (earlier, record) in records.iter().enumerate() {
        let judged = judge(record, &records[..earlier]);
        judged.map_err(|refusal| (refusal, earlier + 1))?;
    }
    let holding = records.iter().filter(|record| record.stretch.holds(key));
    Ok(holding.map(|record| record.number).collect())
}

/// Rules 2 to 6 for the record itself, then 8 against the places before it.
pub fn judge(record: &Band, earlier: &[Band]) -> Result<(), Refusal> {
    record.judge()?;
    let stands_twice = earlier.iter().any(|other| other.number == record.number);
    refuse_when(stands_twice, NUMBER_TAKEN)
}

/// The answer of a scan of so many records. One that tells a bad record is counted by how
/// that one stands among the others.
pub fn told(scanned: Scanned, records: usize) -> Foreseen {
    match scanned {
        Ok(flags) => {
            let count = flags.len();
            Foreseen::told(format_args!("place 0 count {count} {}", bands(flags)))
        }
        Err((refusal, place)) => {
            let (number, words) = (refusal.number(), refusal.words());
            let sight = match place {
                0 => FOR_THE_KEY.to_string(),
                _ => format!("{number} at {}", place_in_words(refusal, place, records)),
            };
            Foreseen::Exactly(format!("{number} place {place} {words}").into(), sight.into())
        }
    }
}

/// How a place stands among the others. No number can stand twice before place 2, which is
/// therefore the first one for 8.
fn place_in_words(refusal: Refusal, place: usize, records: usize) -> &'static str {
    let earliest = if refusal == NUMBER_TAKEN { 2 } else { 1 };
    match (place <= earliest, place == records) {
        (true, true) => "the only place",
        (true, false) => "the first place",
        (false, false) => "a place between",
        (false, true) => "the last place",
    }
}
