//! The table of a sitting in CSV, by RFC 4180 but for the end of a line, which is byte 10 as in the texts themselves. A
//! cell that a spreadsheet would take for a formula or a time, as the rule `+1+3:5`, holds the line that document 01
//! prints, `rule=+1+3:5`; so do the values. Names alone are as they come.

use super::marking::Row;
use crate::shown;
use acornsled::{Refused, Verdict};
use std::io::{self, Write};
use std::os::unix::ffi::OsStrExt;

const HEADER: &str = "script,verdict,refused,paper,line,rule,values";

/// Writes a line for each row, below the header where it is wanted: a verdict, with its rule and values where it has
/// them, or a refusal with its paper and line.
pub fn write(out: &mut impl Write, header: bool, rows: &[Row]) -> io::Result<()> {
    if header {
        writeln!(out, "{HEADER}")?;
    }
    for row in rows {
        put(out, row.name.as_bytes())?;
        match &row.marked.answer {
            Ok(verdict) => marked(out, verdict)?,
            Err(Refused { paper, refusal }) => writeln!(out, ",,{},{paper},{},,", refusal.number(), refusal.line())?,
        }
    }
    out.flush()
}

/// The cells of a verdict, with the lines of loose and tight.
fn marked(out: &mut impl Write, verdict: &Verdict) -> io::Result<()> {
    let (rule, values) = match verdict {
        Verdict::Equal => (String::new(), String::new()),
        Verdict::Loose { rule, values } => (shown::rule(rule.as_ref()), shown::values(values)),
        Verdict::Tight { rule, values } => (shown::rule(Some(rule)), shown::values(values)),
    };
    write!(out, ",{},,,,{rule},", verdict.name())?;
    put(out, values.as_bytes())?;
    writeln!(out)
}

/// Writes a cell. Its bytes are as they come, also where they are no UTF-8, so that a file is found by its name; they
/// are quoted where one of them would end the cell.
fn put(out: &mut impl Write, cell: &[u8]) -> io::Result<()> {
    if !cell.iter().any(|byte| b",\"\r\n".contains(byte)) {
        return out.write_all(cell);
    }
    let mut quoted = vec![b'"'];
    for &byte in cell {
        if byte == b'"' {
            quoted.push(b'"');
        }
        quoted.push(byte);
    }
    quoted.push(b'"');
    out.write_all(&quoted)
}
