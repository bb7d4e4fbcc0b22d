//! `acornsled bank`: a sheet in bank form, which is the one text of its table, and whether a text is in that form.

use crate::source::Source;
use crate::status::Status;
use crate::{arguments, output, usage};
use acornsled::{Refusal, Table};
use std::ffi::OsString;

/// Prints the sheet in bank form, or, where that is asked for, that it is in bank form; or the refusal, and tells why it is
/// refused.
pub fn run(given: &[OsString]) -> Status {
    let (files, check) = match arguments::files_and_option(given, &usage::BANK, 0..=1, Some("--check")) {
        Ok(given) => given,
        Err(status) => return status,
    };
    let source = files.first().map_or(Source::Input, |name| Source::of(name));
    let sheet = source.held(source.to_string());
    let answer = if check { checked(&sheet.bytes) } else { written(&sheet.bytes) };
    match answer {
        Ok(answer) => output::answer(&answer),
        Err(refusal) => sheet.refuse(refusal),
    }
}

/// What the library writes of the table that ordinary reading makes of the text.
fn written(text: &[u8]) -> Result<Vec<u8>, Refusal> {
    Table::read(text)?.text()
}

/// What is printed where bank reading accepts the text.
fn checked(text: &[u8]) -> Result<Vec<u8>, Refusal> {
    Table::read_bank(text).map(|_| b"bank=yes\n".to_vec())
}
