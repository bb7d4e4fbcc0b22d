//! The arguments of a command that takes files: its options, and the files that are named.

use crate::output;
use crate::status::Status;
use crate::usage::{self, Page};
use crate::visible;
use std::ffi::{OsStr, OsString};
use std::ops::RangeInclusive;
use std::os::unix::ffi::OsStrExt;

/// The files that are named, or the status where there is no more to do: help or the version was asked for, or the use is
/// wrong. `--` ends the options, and `-` is a file.
pub fn files<'a>(given: &'a [OsString], page: &Page, due: RangeInclusive<usize>) -> Result<Vec<&'a OsStr>, Status> {
    files_and_option(given, page, due, None).map(|(files, _)| files)
}

/// The same of a command that may have an option of its own, and whether that is given.
pub fn files_and_option<'a>(
    given: &'a [OsString],
    page: &Page,
    due: RangeInclusive<usize>,
    option: Option<&str>,
) -> Result<(Vec<&'a OsStr>, bool), Status> {
    let (mut files, mut is_given): (Vec<&OsStr>, bool) = (Vec::new(), false);
    let mut rest = given.iter().map(OsString::as_os_str);
    while let Some(argument) = rest.next() {
        match argument.as_bytes() {
            b"--" => files.extend(rest.by_ref()),
            b"--help" | b"-h" => return Err(output::answer(page.help.as_bytes())),
            b"--version" | b"-V" => return Err(output::answer(usage::VERSION.as_bytes())),
            own if option.is_some_and(|option| option.as_bytes() == own) => is_given = true,
            [b'-', _, ..] => return Err(usage::wrong(page.usage, &unknown(argument))),
            _ => files.push(argument),
        }
    }
    if due.contains(&files.len()) {
        return Ok((files, is_given));
    }
    Err(usage::wrong(page.usage, &miscounted(files.len(), due)))
}

fn unknown(option: &OsStr) -> String {
    format!("there is no option {}; a file of that name is given after --", visible::name(option))
}

fn miscounted(named: usize, due: RangeInclusive<usize>) -> String {
    let (least, most) = due.into_inner();
    let bound = if least == most { "" } else { "at most " };
    let verb = if named == 1 { "is" } else { "are" };
    format!("{bound}{} due, and {named} {verb} given", usage::counted(most, "file is", "files are"))
}
