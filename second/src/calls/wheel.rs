//! The wheel gives the level at a place and the place to go on from: 7. It is lent no memory,
//! so neither sizes nor words play a part.

use crate::desk::foreseen::Foreseen;
use crate::desk::form::{numbers, Changes, Command, Form, Sort, Word};
use crate::paper::wheel::{turned, Turn, Turned};

/// Takes a level from the wheel.
pub static WHEEL: Form = Form {
    name: "wheel",
    takes: &[Sort::Place],
    changes: Changes::Nothing,
    foresee: |_, words| {
        let [place] = numbers(words);
        told(place, turned(place))
    },
    #[rustfmt::skip]
    answers: &[
        "0 level 1", "0 level 2", "0 level 3", "0 level 4",
        "0 level 5", "0 level 6", "0 level 7", "0 level 8",
        BACK_TO_THE_FIRST, FOR_PLACE_0, FOR_A_HIGH_PLACE,
    ],
};

const BACK_TO_THE_FIRST: &str = "0 next 1";
const FOR_PLACE_0: &str = "7 for place 0";
const FOR_A_HIGH_PLACE: &str = "7 for a place above 1024";

/// Asks for the level at a place.
pub fn wheel(place: u32) -> Command {
    WHEEL.with([Word::Number(place)])
}

/// The answer for a place. A turn is counted by its level, and the one that comes round again
/// by that.
pub fn told(place: u32, turned: Turned) -> Foreseen {
    match turned {
        Ok(Turn { level, next }) => {
            let told = Foreseen::told(format_args!("level {level} next {next}"));
            match next {
                1 => told.counted_as(BACK_TO_THE_FIRST),
                _ => told.counted_as(format!("0 level {level}")),
            }
        }
        Err(refusal) => {
            let ground = if place == 0 { FOR_PLACE_0 } else { FOR_A_HIGH_PLACE };
            Foreseen::refused(refusal).counted_as(ground)
        }
    }
}
