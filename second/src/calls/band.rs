//! The band readout gives a live band as it was given: 1 for sizes, 3, 9.

use crate::desk::foreseen::Foreseen;
use crate::desk::form::{numbers, Changes, Command, Form, Sort, Word};
use crate::paper::band::judge_number;
use crate::paper::profile::Profile;
use crate::paper::refusals::NUMBER_NOT_LIVE;

/// Reads out a band.
pub static BAND: Form = Form {
    name: "band",
    takes: &[Sort::BandNumber],
    changes: Changes::Nothing,
    foresee: |desk, words| {
        let [number] = numbers(words);
        let tell = |profile: &Profile| {
            let band = profile.bands.get(&number).ok_or(NUMBER_NOT_LIVE)?;
            let (scope, stretch) = (band.scope, band.stretch);
            Ok(Foreseen::told(format_args!("scope {scope} stretch {stretch}")))
        };
        desk.read_out(desk.profile(), judge_number(number), &["0", "9"], tell)
    },
    answers: &["0", "1", "3", "9"],
};

/// Asks for the band of a number.
pub fn band(number: u32) -> Command {
    BAND.with([Word::Number(number)])
}
