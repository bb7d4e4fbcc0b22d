//! Which papers a text can be: a sheet may name hidden quantities, and a script may have larger bounds.

use super::rule;
use crate::reason::form::{self, RuleLine};
use crate::reason::lines::Lines;
use crate::reason::written::{listed, Written};
use acornsled::limits::MOST_BOUND;
use acornsled::{Paper, Refused};

/// The text as a sheet or, where it is refused as one and names no hidden quantity, as a script; or its refusal.
pub fn read(text: &[u8]) -> Result<Written<'_>, Refused> {
    let taken = |paper| Written::of(text, paper).map_err(|refusal| Refused { paper, refusal });
    taken(Paper::Sheet).or_else(|refused| match is_for_sheets(&Lines::of(text)) {
        true => Err(refused),
        false => taken(Paper::Script),
    })
}

/// Whether some line, of a text that is accepted or not, is a rule that names a hidden quantity.
fn is_for_sheets(lines: &Lines) -> bool {
    let hidden = lines.hidden();
    let names = |line| form::rule(lines.bytes(line)).is_ok_and(|rule| rule::names(&rule, hidden));
    (4..=lines.count()).any(names)
}

/// Which lines keep the text from being a script, or a sheet.
pub fn told(written: &Written) -> Option<String> {
    match written.paper {
        Paper::Script => {
            let lines = lines(written, |rule| !rule.bound.within(0, MOST_BOUND.unsigned_abs() as usize));
            let held =
                said(&lines, "has a bound that is too large for a sheet", "have bounds that are too large for a sheet");
            held.map(|held| format!("{held}: the text can be a script, but not a sheet"))
        }
        Paper::Sheet | Paper::Both => {
            let lines = lines(written, |rule| rule::names(rule, written.hidden));
            let named = said(&lines, "names a hidden quantity", "name a hidden quantity");
            named.map(|named| format!("{named}: the text can be a sheet, but not a script"))
        }
    }
}

/// The lines whose rules are such.
fn lines(written: &Written, such: impl Fn(&RuleLine) -> bool) -> Vec<usize> {
    written.rules.iter().filter(|(_, rule)| such(rule)).map(|&(line, _)| line).collect()
}

/// What is said of these lines, if there are any, in the words for one or for several.
fn said(lines: &[usize], one: &str, several: &str) -> Option<String> {
    match lines.len() {
        0 => None,
        1 => Some(format!("line {} {one}", listed(lines))),
        _ => Some(format!("lines {} {several}", listed(lines))),
    }
}
