//! How an input can end: with a line feed, or in the middle of any line.

use super::console::of_length;
use super::writer::Writer;
use crate::desk::script::Script;

/// Last lines that the input ends in, between `|`, each without a line feed.
const LAST_LINES: &[u8] =
    b"check|check\r|check |\tcheck \r|# a remark|# another\r|   |\r|\r\r|chec\
|check\r\r|stab|stab 5\r\r|card|card clea|sum|help";

/// A script for every way to end, each of one line and one of none.
pub fn all() -> Vec<Script> {
    let mut last_lines: Vec<Vec<u8>> =
        LAST_LINES.split(|&byte| byte == b'|').map(<[u8]>::to_vec).collect();
    let mut writer = Writer::new("ending", 0);
    for length in [200, 201] {
        last_lines.extend(of_length(&mut writer.dice, length));
    }
    let mut endings = vec![Writer::new("ending", 0).script()];
    for last_line in last_lines {
        let mut writer = Writer::new("ending", 0);
        writer.write(last_line);
        writer.made.is_unended = true;
        endings.push(writer.script());
    }
    endings
}
