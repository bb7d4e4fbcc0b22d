//! How many rule lines line 3 announces, and how many there are.

use super::kind::Kind;
use super::lines::{Found, Lines};
use crate::usage::counted;

/// Whether a line is meant as a rule line, well formed or not: it has the key in some spelling, or a signed quantity
/// without the key.
pub fn is_rule(line: &[u8]) -> bool {
    let line = line.trim_ascii();
    let keyed = line.get(..4).is_some_and(|key| key.eq_ignore_ascii_case(b"rule"));
    match if keyed { line[4..].trim_ascii_start() } else { line } {
        [b'=' | b':' | b'+' | b'-' | b'0'..=b'9', ..] if keyed => true,
        [b'+' | b'-', b'0'..=b'9', ..] => true,
        rest => keyed && rest.is_empty(),
    }
}

/// Both numbers, where they may be the fault: a line is missing or empty, or there is one too many.
pub fn told(lines: &Lines, line: usize, kind: Kind) -> Option<String> {
    let announced = lines.announced()?;
    let there = (4..=lines.count()).filter(|&number| is_rule(lines.bytes(number))).count();
    let missing = matches!(lines.at(line), Found::Missing);
    let empty = !missing && lines.bytes(line).trim_ascii().is_empty();
    let told = match kind {
        Kind::Rule => missing || empty,
        Kind::Behind(_) => there > announced,
        Kind::Quantities | Kind::Hidden | Kind::Rules => false,
    };
    let remove = if empty { "remove the empty line; " } else { "" };
    let change = if there == announced { "" } else { "; change the number or the lines" };
    let follow = counted(there, "rule line follows", "rule lines follow");
    told.then(|| format!("what helps: {remove}line 3 says rules={announced}, and {follow} it{change}"))
}
