//! The verdict on two tables in ordinary Rust, as `plain_reasons` finds it for two texts. The workspace is not needed, and
//! only its length is looked at.

use crate::library::{too_short, Header, Papers, Reply, TableMarker, MISMATCH, PAST_LIMIT, SIZE};
use crate::meaning::{script_limit, size, LIMIT, MOST_QUANTITIES};
use crate::plain::within;
use crate::plain_mark::Paper;
use crate::plain_reasons::verdict;

/// The verdict or the first refusal, with the rule and the integers of loose and tight.
pub fn mark_tables(papers: Papers, workspace: &[i64], values: &mut [i64], rule: &mut [i64; 3]) -> Reply {
    match checked(papers, workspace.len(), values.len()) {
        Err(refusal) => refusal,
        Ok((sheet, script)) => Reply { number: verdict(&sheet, &script, &mut values[..papers.n], rule), value: 0 },
    }
}

/// Both papers, each with a table that is just large enough. n is tested first, so that 4n² cannot wrap.
fn checked(papers: Papers, workspace: usize, values: usize) -> Result<(Paper, Paper), Reply> {
    let Papers { n, hidden, sheet, script } = papers;
    if n == 0 || n > MOST_QUANTITIES || sheet.len().min(script.len()) < size(n) {
        return Err(SIZE);
    }
    if workspace < 2 * size(n) {
        return Err(too_short(2 * size(n)));
    }
    if values < n {
        return Err(too_short(n));
    }
    let paper = |table: &[i64]| Paper { header: Header { quantities: n, hidden }, table: table[..size(n)].to_vec() };
    let (sheet, script) = (paper(sheet), paper(script));
    // as 64 bits, for a 32-bit number cannot be shifted by 32
    let past_n = u64::from(hidden) >> n != 0;
    if past_n || !within(LIMIT, &sheet.table) || !within(script_limit(hidden), &script.table) {
        return Err(PAST_LIMIT);
    }
    if !script.fits(&sheet) {
        return Err(Reply { number: MISMATCH, value: 0 });
    }
    Ok((sheet, script))
}

/// The call as a library's.
pub struct Plain;

impl TableMarker for Plain {
    fn mark_tables(&self, papers: Papers, workspace: &mut [i64], values: &mut [i64], rule: &mut [i64; 3]) -> Reply {
        mark_tables(papers, workspace, values, rule)
    }
}
