//! Refusals with 2: a line that is malformed or missing, or bytes after the last rule.

use super::fault::Fault;
use super::kind::Kind;
use super::lines::{Found, Lines};
use super::{announced, behind, encoding, form, Told};
use crate::usage::counted;

const ADD_END: &str = "end the last line too; printf '\\n' >> FILE adds what is missing";

/// What is told of such a line.
pub fn told(lines: &Lines, line: usize) -> Told {
    let kind = Kind::of(line, lines);
    let expected = kind.expected();
    let mut told = match fault(lines, line, kind) {
        Some(fault) => fault.told(lines.bytes(line), &expected),
        None => Told { at: None, details: vec![missing(lines, line), format!("expected: {expected}")] },
    };
    told.details.extend(announced::told(lines, line, kind));
    told
}

/// What is wrong with the line, none where it is missing.
fn fault(lines: &Lines, line: usize, kind: Kind) -> Option<Fault> {
    let encoded = if line == 1 { encoding::fault(lines.text) } else { encoding::changed(lines.bytes(line)) };
    encoded.or_else(|| match lines.at(line) {
        Found::Missing => None,
        Found::Ended(bytes) => Some(formed(bytes, kind).err().unwrap_or_else(|| unknown(bytes))),
        Found::Unended(bytes) => Some(formed(bytes, kind).err().unwrap_or_else(|| unended(bytes))),
    })
}

/// Whether the line has the form of its kind.
fn formed(line: &[u8], kind: Kind) -> Result<(), Fault> {
    match kind {
        Kind::Quantities => form::count(line, "quantities=").map(|_| ()),
        Kind::Hidden => form::hidden(line).map(|_| ()),
        Kind::Rules => form::count(line, "rules=").map(|_| ()),
        Kind::Rule => form::rule(line).map(|_| ()),
        Kind::Behind(_) => Err(behind::fault(line)),
    }
}

fn unended(line: &[u8]) -> Fault {
    Fault::new(line.len(), 1, "no line feed (byte 10) at the end of the last line").with_help(ADD_END)
}

/// Not met where the reading here agrees with the library's.
fn unknown(line: &[u8]) -> Fault {
    Fault::new(0, line.len(), "the line is malformed")
}

/// What is told of a line that is not there.
fn missing(lines: &Lines, line: usize) -> String {
    if lines.text.is_empty() {
        return "the text is empty".to_string();
    }
    format!("the text ends after {}; line {line} is missing", counted(lines.count(), "line", "lines"))
}
