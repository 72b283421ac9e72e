//! The console's own rules: what a line is, what a word is, and what is wrong with one
//! ("Lines", "Words of a line" and "What is wrong with a line" in `docs/DESK.md`).

use super::ground::Ground;
use super::kind::Kind;
use super::odd_words::{any_word, odd_words, right_word};
use super::writer::Writer;
use crate::calls::card::{card_add, card_clear, card_scan};
use crate::calls::FORMS;
use crate::desk::form::Form;
use crate::dice::Dice;

/// The console.
pub const KIND: Kind = Kind {
    name: "console",
    says: "every odd and every wrong word and line, long lines, torn lines, in small lumps",
    seeds: 70,
    write,
};

/// The seeds take these one after the other.
const LUMPS: [usize; 7] = [1, 2, 3, 7, 64, 4_096, usize::MAX];

/// Lines as such, between `|`: blank ones, remarks, names that are none, words left out and
/// left over, and lines that are wrong in two ways.
const ODD_LINES: &[u8] =
    b"| |\t|\r| \t \t |  \r|\t\r|#|# a remark|#check|   # after blanks|\t#\ttabs\
|##|# \xff \0 \x80|#\r|#\r\r# carriage returns\r\
|Check|CHECK|checK|checks|chec|c|check.|check,|check;|check#|check()|-check|/check|?|0|5|quit\
|exit|bands|nodes|marks|STAB 5|stab5|stab:5|stab=5 6|insert[1,2]|Memory 5 5|yes|clear\
|Wheel 1|wheels 1|whee 1|wheel1|wheel:1|wheel.\
|add 1 64 [1,2]|scan 5|cards clear|Card clear|card:clear|cardclear|card Clear|card clea\
|card cleared|card adds 1 64 [1,2]|card scan:5|card 5|card # a remark|card card clear\
|card xyz 1 64 [1,2] 1 1|card \r\r|card scan\r 5|helped me x y z|\r\r|\rcheck|che\rck|check\r\r\
|check\rcheck|\0|check\0|\0check|\xff\xfe|check\xc2\xa0|\x0bcheck\x0c\
|check \r\r|check \r |sum\t\xff|room \0|empty # no remark here|stab 5\r\r|stab 5\r |fill 5\r\r\
|fill \x0b5|peek bands\r 5|stab 5\xc2\xa06|stab|card|\tcard \t |card\r|card clear \0\
|card scan 5\r\r|card add 1 64 [1,2]\r\r|wheel 1\r\r|wheel 1 \r 2\
|\tcheck|check\t|   check   |check\r|check \r| \t room \t \r|help|help\r|\thelp |remove\t700\t64\
|remove  700 \t 0064\r|card clear|card\tclear| card  \t clear \r|\tcard\tscan\t5\r\
|card   scan 0:0:5 |sum | empty|peek\tnodes\t1|poke bands 8191 9|peek bands 8191\
|poke bands 8192 0|fill 000|wheel \t 01024\r\
|memory 4294967296|memory x|memory 9999|memory 9999 9999 9999|lengths 1:2 0|lengths 9999 99999\
|poke x|poke band 4294967296|poke bands x|poke bands 99999|peek marks 99999 x|insert 1 x [100\
|insert 1 64 [100, 400] 1 1|insert 1 64 [100,x] y|insert 1 64 [64:0:0,400] 4294967296 1 1\
|remove 4294967296|edge 64:0:0|edge x 4294967296 1|edge 5 4294967296 1|stab 0:0:4294967296 x\
|wheel 4294967296 1\
|card clear 5 x|card add x|card add 4294967296|card add 1 [1,2]|card add 1 x [100\
|card add 1 64 [100, 400]|card add 1 64 [64:0:0,x] 1|card add 1 64 [1,2] 1 1|card scan 64:0:0 x";

/// How many lines are torn at any byte.
const TORN: u32 = 150;

fn write(writer: &mut Writer, seed: u64) {
    writer.made.lump = LUMPS[seed as usize % LUMPS.len()];
    let ends = (0..9).map(|nth| nth * 9_000).collect();
    let ground = Ground::of_the_house(&mut writer.dice, ends, 7);
    // Very long lines would take too long byte by byte.
    let mut lines = all_lines(&mut writer.dice, writer.made.lump >= 64);
    writer.dice.shuffle(&mut lines);
    writer.begin(20, 100);
    for line in lines {
        writer.write(line);
        // Between the lines goes on a life that they must not disturb.
        if writer.dice.one_in(8) {
            writer.live_on(&ground);
        }
        if writer.dice.one_in(8) {
            use_the_card(writer, &ground);
        }
    }
    writer.ask_what_stands();
}

/// The bench card is added to or cleared and then scanned, so that a wrong line that changes
/// it is seen.
fn use_the_card(writer: &mut Writer, ground: &Ground) {
    let bands = writer.bands();
    let record = ground.band(&mut writer.dice, &bands);
    let change = match writer.dice.one_in(3) {
        true => card_clear(),
        false => card_add(record),
    };
    writer.ask(change);
    let key = writer.dice.pick(&ground.ends);
    writer.ask(card_scan(key));
}

fn all_lines(dice: &mut Dice, very_long_too: bool) -> Vec<Vec<u8>> {
    let odd = ODD_LINES.split(|&byte| byte == b'|');
    let mut lines: Vec<Vec<u8>> = odd.map(<[u8]>::to_vec).collect();
    for form in FORMS {
        lines.extend(too_few_and_too_many(dice, form));
        for nth in 0..form.takes.len() {
            lines.extend(odd_at(dice, form, nth));
        }
    }
    lines.extend((0..TORN).map(|_| torn(dice)));
    let very_long: &[usize] = if very_long_too { &[4_095, 4_096, 5_000, 70_000] } else { &[] };
    for &length in [199, 200, 201, 202, 400].iter().chain(very_long) {
        lines.extend(of_length(dice, length));
    }
    lines
}

/// Every way to leave words out at the end, with those that are there right, and with any
/// there; and one or more words too many.
fn too_few_and_too_many(dice: &mut Dice, form: &Form) -> Vec<Vec<u8>> {
    let mut lines = Vec::new();
    for there in 0..form.takes.len() {
        let takes = &form.takes[..there];
        lines.push(joined(form, takes.iter().map(|&sort| right_word(dice, sort))));
        lines.push(joined(form, takes.iter().map(|&sort| any_word(dice, sort))));
    }
    for more in 1..4 {
        let mut words: Vec<Vec<u8>> =
            form.takes.iter().map(|&sort| right_word(dice, sort)).collect();
        words.extend((0..more).map(|_| one_more(dice)));
        lines.push(joined(form, words));
    }
    lines
}

/// Every odd word in one place. Those before it are right; those after it may be any, and
/// there may be too few or too many.
fn odd_at(dice: &mut Dice, form: &Form, nth: usize) -> Vec<Vec<u8>> {
    let line = |odd: &[u8]| {
        let mut words: Vec<Vec<u8>> =
            form.takes[..nth].iter().map(|&sort| right_word(dice, sort)).collect();
        words.push(odd.to_vec());
        words.extend(form.takes[nth + 1..].iter().map(|&sort| any_word(dice, sort)));
        match dice.below(4) {
            0 => words.push(one_more(dice)),
            1 => words.truncate(nth + 1 + dice.below((form.takes.len() - nth) as u32) as usize),
            _ => {}
        }
        joined(form, words)
    };
    odd_words(form.takes[nth]).map(line).collect()
}

/// A word that no command has room for any more.
fn one_more(dice: &mut Dice) -> Vec<u8> {
    let words: [&[u8]; 8] = [b"1", b"x", b"#", b"# a remark", b"bands", b"check", b"\0", b"\r"];
    dice.pick(&words).to_vec()
}

/// A line of a command's name and these words.
fn joined(form: &Form, words: impl IntoIterator<Item = Vec<u8>>) -> Vec<u8> {
    let mut line = form.name.as_bytes().to_vec();
    for word in words {
        line.push(b' ');
        line.extend(word);
    }
    line
}

/// A right line in which a byte or a few are others, gone, or there twice.
fn torn(dice: &mut Dice) -> Vec<u8> {
    let form = dice.pick(FORMS);
    let words: Vec<Vec<u8>> = form.takes.iter().map(|&sort| right_word(dice, sort)).collect();
    let mut line = joined(form, words);
    for _ in 0..1 + dice.below(3) {
        let at = dice.below(line.len() as u32) as usize;
        let byte = dice.pick(b" \t\r\0,:[]()#-+019azE\xff");
        match dice.below(4) {
            0 => line.insert(at, byte),
            1 => line[at] = byte,
            2 => line.insert(at, line[at]),
            _ if line.len() > 1 => drop(line.remove(at)),
            _ => {}
        }
    }
    line
}

/// Lines of so many bytes, without and with a carriage return past them: a remark, blanks,
/// words that are wrong and one that is missing, and commands with zeros and blanks in them.
pub fn of_length(dice: &mut Dice, length: usize) -> Vec<Vec<u8>> {
    let before = " ".repeat(dice.below((length - "check".len()) as u32 + 1) as usize);
    let filled_up = |text: String, with: &str| text.clone() + &with.repeat(length - text.len());
    let zeros = "0".repeat(length - "stab 7".len());
    let lines = [
        filled_up("#".to_string(), "a"),
        filled_up(String::new(), " "),
        filled_up(String::new(), "x"),
        // Of two carriage returns the first is a byte like all others.
        filled_up("\r".to_string(), "x").chars().rev().collect(),
        filled_up("stab x".to_string(), " "),
        filled_up("stab".to_string(), " "),
        filled_up(before + "check", "\t"),
        format!("stab {zeros}7"),
    ];
    let returning = lines.clone().map(|line| line + "\r");
    lines.into_iter().chain(returning).map(String::into_bytes).collect()
}
