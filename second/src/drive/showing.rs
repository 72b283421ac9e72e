//! Printing a script that was cut down, so that it can be given to a desk as it is.

use super::comparing::one_line;
use super::cutting::Cut;
use crate::desk::script::Script;

/// The lines, and under the last what is foreseen and what was answered, as remarks that may
/// be pasted along. What a screen does not show is given as a line of shell as well.
pub fn shown(cut: &Cut) -> String {
    let lines = cut.script.lines.iter();
    let mut out: String = lines.map(|line| one_line(&line.text) + "\n").collect();
    let place = match cut.difference.line {
        Some(_) => "",
        None => " after the last line",
    };
    out += &format!("# foreseen{place}: {}\n", cut.difference.foreseen);
    out += &format!("# answered{place}: {}\n", cut.difference.answered);
    if cut.script.lump < cut.script.input().len() {
        out += &format!("# given {} bytes at a time\n", cut.script.lump);
    }
    if !is_plain(&cut.script) {
        let written: String = cut.script.input().into_iter().map(for_printf).collect();
        out += &format!("# exactly: printf '{written}' | desk\n");
    }
    out
}

/// Whether pasting the lines gives the desk the very same bytes.
fn is_plain(script: &Script) -> bool {
    let is_seen = |text: &[u8]| {
        let is_trimmed = text.trim_ascii().len() == text.len();
        is_trimmed && text.iter().all(|byte| (b' '..=b'~').contains(byte))
    };
    !script.is_unended && script.lines.iter().all(|line| is_seen(&line.text))
}

/// One byte in the writing of `printf`, which takes a first `-` for something else.
fn for_printf(byte: u8) -> String {
    match byte {
        b'\n' => "\\n".to_string(),
        b'%' => "%%".to_string(),
        b' '..=b'~' if !b"'\\-".contains(&byte) => char::from(byte).to_string(),
        _ => format!("\\{byte:03o}"),
    }
}
