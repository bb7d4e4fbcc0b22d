//! What standard error is told beside a table.

use super::arguments::Scripts;
use super::marking::Row;
use crate::output::tell;
use crate::usage::counted;
use crate::visible;
use acornsled::Verdict;
use std::io::ErrorKind;
use std::os::unix::ffi::OsStrExt;

/// As many unread scripts are named.
const NAMED: usize = 5;

/// Tells which scripts could not be read, which names are no good to a spreadsheet, and last the summary.
pub fn tell_all(scripts: &Scripts, rows: &[Row]) {
    tell_unread(rows);
    if matches!(scripts, Scripts::Listed(b'\n')) {
        tell_carriage_returns(rows);
    }
    tell_formulas(rows);
    tell(&summary(rows));
}

fn tell_unread(rows: &[Row]) {
    let unread: Vec<_> = rows.iter().filter_map(|row| Some((&row.name, row.marked.unread.as_ref()?))).collect();
    if unread.is_empty() {
        return;
    }
    tell(&format!("{} could not be read and got the row of an empty text:", scripts(unread.len())));
    for (name, fault) in unread.iter().take(NAMED) {
        tell(&format!("  \"{}\": {fault}", visible::name(name)));
    }
    if unread.len() > NAMED {
        tell(&format!("  and {} more", unread.len() - NAMED));
    }
}

/// A list as Windows writes it gives names that end with byte 13. They are taken as they are, for a file may be called so,
/// but where nothing is found by them the list is the likely reason.
fn tell_carriage_returns(rows: &[Row]) {
    let lost = |row: &&Row| row.marked.unread.as_ref().is_some_and(|fault| fault.kind() == ErrorKind::NotFound);
    let names: Vec<_> =
        rows.iter().filter(lost).map(|row| &row.name).filter(|name| name.as_bytes().ends_with(b"\r")).collect();
    if let Some(first) = names.first() {
        let (count, first) = (counted(names.len(), "such name is", "such names are"), visible::name(first));
        tell(&format!(
            "the list has carriage returns (Windows line ends), which are part of the names: {count} not found, as \"{first}\""
        ));
    }
}

fn tell_formulas(rows: &[Row]) {
    let names: Vec<_> = rows.iter().map(|row| &row.name).filter(|name| is_like_a_formula(name.as_bytes())).collect();
    if let Some(first) = names.first() {
        let (count, first) = (names.len(), visible::name(first));
        tell(&format!(
            "names like formulas: {count}, as \"{first}\"; let a spreadsheet take the column script as text"
        ));
    }
}

/// Whether a spreadsheet may take a name for a formula. What it makes of a blank before a sign is not known, so that
/// every name that begins with one counts.
fn is_like_a_formula(name: &[u8]) -> bool {
    name.first().is_some_and(|&byte| b"=+-@".contains(&byte) || byte.is_ascii_whitespace())
}

/// How many scripts got which verdict.
fn summary(rows: &[Row]) -> String {
    let (mut equal, mut loose, mut tight, mut refused) = (0, 0, 0, 0);
    for row in rows {
        *match &row.marked.answer {
            Ok(Verdict::Equal) => &mut equal,
            Ok(Verdict::Loose { .. }) => &mut loose,
            Ok(Verdict::Tight { .. }) => &mut tight,
            Err(_) => &mut refused,
        } += 1;
    }
    format!("{}: {equal} equal, {loose} loose, {tight} tight, {refused} refused", scripts(rows.len()))
}

fn scripts(count: usize) -> String {
    counted(count, "script", "scripts")
}
