//! What stands after the last line that is announced.

use super::fault::Fault;
use super::{announced, cause};
use crate::usage::counted;

/// The fault of such a line.
pub fn fault(line: &[u8]) -> Fault {
    let blanks = line.len() - line.trim_ascii_start().len();
    let what = match line {
        [] => "an empty line after the last line".to_string(),
        _ if blanks == line.len() && line.contains(&b'\r') => return returned(line),
        _ if blanks == line.len() => "blanks after the last line".to_string(),
        _ if cause::is_comment(&line[blanks..]) => return cause::comment(blanks, line.len() - blanks),
        _ if announced::is_rule(line) => "a rule line more than line 3 announces".to_string(),
        _ => format!("{} after the last line", counted(line.len(), "byte", "bytes")),
    };
    Fault::new(0, line.len(), what)
}

/// A line that is empty but for a carriage return: without that it is one line too many still.
fn returned(line: &[u8]) -> Fault {
    let what = "an empty line after the last line, with a carriage return (CR, byte 13)";
    Fault::new(0, line.len(), what).with_help(format!("remove the line; {}", cause::WINDOWS))
}
