//! `acornsled key`: the tightest key of a sheet, printed as the program *key* prints it.

use crate::source::Source;
use crate::status::Status;
use crate::{arguments, output, usage};
use std::ffi::OsString;

/// Prints the key's text or the refusal, and tells why it is refused.
pub fn run(given: &[OsString]) -> Status {
    let files = match arguments::files(given, &usage::KEY, 0..=1) {
        Ok(files) => files,
        Err(status) => return status,
    };
    let source = files.first().map_or(Source::Input, |name| Source::of(name));
    let sheet = source.held(source.to_string());
    match acornsled::tight_key(&sheet.bytes) {
        Ok(key) => output::answer(&key),
        Err(refusal) => sheet.refuse(refusal),
    }
}
