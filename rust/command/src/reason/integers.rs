//! Integers that satisfy rules of an accepted text, as the library finds them.

use super::written::Written;
use acornsled::{Paper, Table, Verdict};

/// Integers, one for each quantity, that satisfy the rules of these lines, if there are any. Of a script no rule names a
/// hidden quantity.
pub fn satisfying(written: &Written, lines: &[usize]) -> Option<Vec<i64>> {
    let rules: Vec<&[u8]> = lines.iter().map(|&line| written.lines.bytes(line)).collect();
    let text = paper(written, &rules);
    match written.paper {
        Paper::Script => allowed(&text, &paper(written, &[b"rule=+1:0", b"rule=-1:-1"])),
        Paper::Sheet | Paper::Both => Table::read(&text).and_then(|table| table.assignment()).ok(),
    }
}

/// Integers that a script allows, if there are any: they show that it is loose beside a sheet that allows nothing. A table of
/// the script would be taken for a sheet's, for which its bounds may be too large.
fn allowed(script: &[u8], nothing: &[u8]) -> Option<Vec<i64>> {
    match acornsled::mark(nothing, script) {
        Ok(Verdict::Loose { values, .. }) => Some(values),
        _ => None,
    }
}

/// A paper with the first two lines of the text and these rule lines.
fn paper(written: &Written, rules: &[&[u8]]) -> Vec<u8> {
    let count = format!("rules={}", rules.len());
    let header = [written.lines.bytes(1), written.lines.bytes(2), count.as_bytes()];
    header.iter().chain(rules).flat_map(|line| [line, b"\n".as_slice()].concat()).collect()
}
