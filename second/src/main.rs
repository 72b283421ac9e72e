//! The second program: holds every answer of a desk against the paper's rules.

#![forbid(unsafe_code)]

use second::drive::program::{program, DIFFERENT};
use std::process::ExitCode;

fn main() -> ExitCode {
    let words: Vec<String> = std::env::args().skip(1).collect();
    ExitCode::from(program(&words, &mut std::io::stdout()).unwrap_or(DIFFERENT))
}
