//! The desk's own commands about the words that it lends: `memory`, `lengths`, `fill`, `poke`,
//! `peek` and `sum`.

use crate::desk::foreseen::Foreseen;
use crate::desk::foreseer::Foreseer;
use crate::desk::form::{numbers, Changes, Command, Form, Sort, Word};
use crate::memory::lending::Lending;
use crate::memory::words::{lengths_of, Slice, SLICES};
use crate::paper::profile::Rooms;

/// Lends memory of so much room.
pub static MEMORY: Form = Form {
    name: "memory",
    takes: &[Sort::Number, Sort::Number],
    changes: Changes::Desk,
    foresee: |desk, words| {
        let [nodes, marks] = numbers(words);
        lend(desk, lengths_of(Rooms { nodes, marks }))
    },
    answers: &["0", NO_SUCH_MEMORY],
};

/// Lends slices of these lengths.
pub static LENGTHS: Form = Form {
    name: "lengths",
    takes: &[Sort::Number, Sort::Number, Sort::Number],
    changes: Changes::Desk,
    foresee: |desk, words| lend(desk, numbers(words).map(|length: u32| length as usize)),
    answers: &["0", NO_SUCH_MEMORY],
};

/// Gives every lent word a value.
pub static FILL: Form = Form {
    name: "fill",
    takes: &[Sort::Number],
    changes: Changes::Desk,
    foresee: |desk, words| {
        let [word] = numbers(words);
        for slice in SLICES {
            desk.lending_mut().slice_mut(slice).fill(word);
        }
        Foreseen::DONE
    },
    answers: &["0"],
};

/// Gives one word a value.
pub static POKE: Form = Form {
    name: "poke",
    takes: &[Sort::Slice, Sort::Number, Sort::Number],
    changes: Changes::Desk,
    foresee: |desk, words| {
        let [index, word] = numbers(words);
        let is_lent = (index as usize) < desk.lending().slice(slice(words)).len();
        if !is_lent {
            return Foreseen::whole(NO_SUCH_WORD);
        }
        desk.lending_mut().slice_mut(slice(words))[index as usize] = word;
        Foreseen::DONE
    },
    answers: &["0", NO_SUCH_WORD],
};

/// Reads one word.
pub static PEEK: Form = Form {
    name: "peek",
    takes: &[Sort::Slice, Sort::Number],
    changes: Changes::Nothing,
    foresee: |desk, words| {
        let [index] = numbers(words);
        match desk.lending().slice(slice(words)).get(index as usize) {
            Some(word) => Foreseen::told(format_args!("{word}")),
            None => Foreseen::whole(NO_SUCH_WORD),
        }
    },
    answers: &["0", NO_SUCH_WORD],
};

/// The sum of all lent words.
pub static SUM: Form = Form {
    name: "sum",
    takes: &[],
    changes: Changes::Nothing,
    foresee: |desk, _| Foreseen::told(format_args!("{}", sum_of(desk.lending()))),
    answers: &["0"],
};

const NO_SUCH_MEMORY: &str = "? no such memory";
const NO_SUCH_WORD: &str = "? no such word";

/// Asks for memory of so much room.
pub fn memory(nodes: u32, marks: u32) -> Command {
    MEMORY.with([nodes, marks].map(Word::Number))
}

/// Asks for slices of these lengths.
pub fn lengths(bands: u32, nodes: u32, marks: u32) -> Command {
    LENGTHS.with([bands, nodes, marks].map(Word::Number))
}

/// Asks to fill all words with this one.
pub fn fill(word: u32) -> Command {
    FILL.with([Word::Number(word)])
}

/// Asks to put a word at an index of a slice.
pub fn poke(slice: Slice, index: u32, word: u32) -> Command {
    POKE.with([Word::Slice(slice), Word::Number(index), Word::Number(word)])
}

/// Asks for the word at an index of a slice.
pub fn peek(slice: Slice, index: u32) -> Command {
    PEEK.with([Word::Slice(slice), Word::Number(index)])
}

/// Asks for the sum.
pub fn sum() -> Command {
    SUM.with([])
}

fn lend(desk: &mut Foreseer, lengths: [usize; 3]) -> Foreseen {
    if desk.lending_mut().lend(lengths) {
        Foreseen::DONE
    } else {
        Foreseen::whole(NO_SUCH_MEMORY)
    }
}

/// S begins at 0, and each word w makes it S x 31 + w + 1, modulo a prime. For six words at a
/// time that is one step, and the modulo is taken after it.
fn sum_of(lending: &Lending) -> u64 {
    const POWERS: [u64; 7] = [887_503_681, 28_629_151, 923_521, 29_791, 961, 31, 1];
    let slices = SLICES.into_iter().map(|slice| lending.slice(slice));
    slices.flat_map(|words| words.chunks(6)).fold(0, |sum, words| {
        let powers = &POWERS[6 - words.len()..];
        let added =
            words.iter().zip(&powers[1..]).map(|(&word, power)| (u64::from(word) + 1) * power);
        (sum * powers[0] + added.sum::<u64>()) % 4_294_967_291
    })
}

/// The slice among the words.
fn slice(words: &[Word]) -> Slice {
    match words {
        [Word::Slice(slice), ..] => *slice,
        _ => unreachable!("the form takes a slice first"),
    }
}
