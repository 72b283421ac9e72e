//! Mistakes in the scan of the bench card, each of which the lives about it find.

use super::mistaken::{assert_bites, at, found};
use crate::calls::card::{judge, scanned, told, Scanned};
use crate::desk::form::numbers;
use crate::paper::band::{judge_number, judge_scope, Band, HOUSE};
use crate::paper::hall::{judge_key, HIGHEST_KEY};
use crate::paper::refusals::*;

type Judge = fn(&Band, &[Band]) -> Result<(), Refusal>;
type Scan = fn(&[Band], u32) -> Scanned;
type Finds = fn(&Band, u32) -> bool;

const LIVES: &[&str] = &["bench_card"];

/// A scan by other rules: first the key, then every record, and then those that are found.
fn by_rules(records: &[Band], key: u32, judge: Judge, finds: Finds) -> Scanned {
    judge_key(key).map_err(|refusal| (refusal, 0))?;
    for (earlier, record) in records.iter().enumerate() {
        judge(record, &records[..earlier]).map_err(|refusal| (refusal, earlier + 1))?;
    }
    let found = records.iter().filter(|record| finds(record, key));
    Ok(found.map(|record| record.number).collect())
}

fn holds(record: &Band, key: u32) -> bool {
    record.stretch.holds(key)
}

fn judge_taken(record: &Band, others: &[Band]) -> Result<(), Refusal> {
    let is_taken = others.iter().any(|other| other.number == record.number);
    refuse_when(is_taken, NUMBER_TAKEN)
}

/// Scans with other rules for a record.
const JUDGES: [(&str, Judge); 9] = [
    ("the number before the record", |record, earlier| {
        judge_taken(record, earlier)?;
        record.judge()
    }),
    ("only numbers side by side", |record, earlier| {
        judge(record, &earlier[earlier.len().saturating_sub(1)..])
    }),
    ("only numbers near by", |record, earlier| {
        judge(record, &earlier[earlier.len().saturating_sub(64)..])
    }),
    ("numbers with the same bit of a word", |record, earlier| {
        record.judge()?;
        let same_bit = |other: &Band| other.number % 64 == record.number % 64;
        refuse_when(earlier.iter().any(same_bit), NUMBER_TAKEN)
    }),
    ("the number before the scope", |record, earlier| {
        judge_number(record.number)?;
        judge(record, earlier)
    }),
    ("the ends before whether a key is held", |record, earlier| {
        judge_scope(record.scope)?;
        judge_number(record.number)?;
        judge_key(record.stretch.low)?;
        judge_key(record.stretch.high)?;
        refuse_when(!record.is_within_scope(), END_OUT_OF_SCOPE)?;
        judge(record, earlier)
    }),
    ("the low end alone", |record, earlier| {
        let mut low_alone = *record;
        low_alone.stretch.high = record.stretch.high.min(HIGHEST_KEY);
        judge(&low_alone, earlier)
    }),
    ("only the keys that are held", |record, earlier| {
        let (mut held, ends) = (*record, record.stretch);
        held.stretch.low = ends.low.wrapping_add(u32::from(!ends.low_closed));
        held.stretch.high = ends.high.wrapping_sub(u32::from(!ends.high_closed));
        match judge(record, earlier) {
            Err(END_OUT_OF_SCOPE) if held.is_within_scope() => Ok(()),
            judged => judged,
        }
    }),
    ("no number that stands twice", |record, _| record.judge()),
];

/// Scans that find other records.
const FINDS: [(&str, Finds); 5] = [
    ("a band at its open low end", |record, key| holds(record, key) || key == record.stretch.low),
    ("a band at its open high end", |record, key| holds(record, key) || key == record.stretch.high),
    ("no band at its closed low end", |record, key| {
        holds(record, key) && key != record.stretch.low
    }),
    ("no band at its closed high end", |record, key| {
        holds(record, key) && key != record.stretch.high
    }),
    ("no band of the house", |record, key| holds(record, key) && record.scope != HOUSE),
];

/// Scans that go wrong as a whole.
const SCANS: [(&str, Scan); 8] = [
    ("places from 0 on", |records, key| {
        scanned(records, key).map_err(|(refusal, place)| (refusal, place.saturating_sub(1)))
    }),
    ("the earlier of two numbers", |records, key| {
        scanned(records, key).map_err(|(refusal, place)| {
            let is_same = |other: &Band| other.number == records[place - 1].number;
            match records.iter().position(is_same).filter(|_| refusal == NUMBER_TAKEN) {
                Some(earlier) => (refusal, earlier + 1),
                None => (refusal, place),
            }
        })
    }),
    ("the last bad place", |records, key| {
        judge_key(key).map_err(|refusal| (refusal, 0))?;
        let judged = |place: usize| judge(&records[place - 1], &records[..place - 1]);
        let bad = |place: usize| Some((judged(place).err()?, place));
        (1..=records.len()).rev().find_map(bad).map_or_else(|| scanned(records, key), Err)
    }),
    ("all records before all numbers", |records, key| {
        by_rules(records, key, |record, _| record.judge(), holds)?;
        by_rules(records, key, judge_taken, holds)
    }),
    ("the records before the key", |records, key| {
        scanned(records, 0)?;
        scanned(records, key)
    }),
    ("no record where there is one only", |records, key| match records {
        [_] => scanned(&[], key),
        _ => scanned(records, key),
    }),
    ("all but the last record", |records, key| match records {
        [but_the_last @ .., _] => scanned(but_the_last, key),
        [] => scanned(records, key),
    }),
    ("no more records than there are numbers", |records, key| {
        scanned(&records[..records.len().min(1_024)], key)
    }),
];

/// A scan with a mistake in it is found and, if that is said, cut down to a few lines.
fn bites(name: &str, most_lines: Option<usize>, scan: impl Fn(&[Band], u32) -> Scanned) {
    let mistake = at("card scan", |command, desk| {
        let [key] = numbers(&command.words);
        told(scan(&desk.card, key), desk.card.len())
    });
    match most_lines {
        Some(most_lines) => assert_bites(name, LIVES, most_lines, &mistake),
        None => assert!(found(LIVES, &mistake).is_some(), "{name}"),
    }
}

#[test]
fn without_a_mistake_nothing_is_found() {
    let right = at("card scan", |command, desk| {
        let [key] = numbers(&command.words);
        told(by_rules(&desk.card, key, judge, holds), desk.card.len())
    });
    assert!(found(LIVES, &right).is_none());
}

#[test]
fn in_judging_a_record() {
    for (name, judge) in JUDGES {
        // It takes many records between two to show that those far apart are not minded.
        let most_lines = (name != "only numbers near by").then_some(4);
        bites(name, most_lines, |records, key| by_rules(records, key, judge, holds));
    }
}

#[test]
fn in_finding_records() {
    for (name, finds) in FINDS {
        bites(name, Some(2), |records, key| by_rules(records, key, judge, finds));
    }
}

#[test]
fn in_a_scan() {
    for (name, scan) in SCANS {
        let most_lines = (name != "no more records than there are numbers").then_some(4);
        bites(name, most_lines, scan);
    }
}
