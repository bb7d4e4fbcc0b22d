//! One sheet, all three calls: the replies, the keys, the assignment, and every word around them.

use crate::calls::{same_reply, AssignmentCall, KeyCall};
use crate::counts::Counts;
use crate::due::Due;
use crate::lent::{further, Lent};
use crate::library::{Key, Library, Reply, DONE, PAST_LIMIT};
use crate::meaning::{size, LIMIT};
use crate::plain;
use crate::random::Random;
use crate::sheets::Sheet;

/// Judges the three calls on a sheet within the limits.
pub fn sheet(library: &dyn Library, sheet: &Sheet, random: &mut Random, counts: &mut Counts) -> Result<(), String> {
    let due = Due::of(sheet)?;
    counts.sheets += 1;
    counts.enumerated += usize::from(due.small);
    match due.reply() {
        DONE => counts.keys += 1,
        _ => counts.without += 1,
    }
    for form in Key::BOTH {
        let call = key_call(form, sheet, &sheet.table, random);
        key(library, &due, call).map_err(|e| format!("{}: {e}", form.name()))?;
    }
    again(library, &due, sheet, random, counts).map_err(|e| format!("tight key again: {e}"))?;
    let n = sheet.n;
    let (table, workspace) = (lent_table(&sheet.table, random), lent_free(size(n), random));
    let values = lent_free(n, random);
    let call = AssignmentCall { n, table, workspace, values };
    assignment(library, &due, call).map_err(|e| format!("assignment: {e}"))?;
    Ok(())
}

/// Judges a call for a key that nothing refuses.
pub fn key(library: &dyn Library, due: &Due, mut call: KeyCall) -> Result<Reply, String> {
    let reply = call.run(library);
    same_reply(reply, due.reply())?;
    call.memory(reply)?;
    if reply == DONE {
        due.key(call.key, &call.table.left()[..size(call.n)])?;
    }
    Ok(reply)
}

/// Judges the call for a tightest key on the tightest key itself: it stays as it is, or is refused where a bound is past a
/// sheet's limit.
fn again(
    library: &dyn Library,
    due: &Due,
    sheet: &Sheet,
    random: &mut Random,
    counts: &mut Counts,
) -> Result<(), String> {
    let Some(tight) = due.tight() else {
        return Ok(());
    };
    let mut call = key_call(Key::Tight, sheet, tight, random);
    if plain::within(LIMIT, tight) {
        counts.again += 1;
        return key(library, due, call).map(|_| ());
    }
    counts.far += 1;
    let reply = call.run(library);
    same_reply(reply, PAST_LIMIT)?;
    call.memory(reply)
}

/// Judges a call for an assignment that nothing refuses.
pub fn assignment(library: &dyn Library, due: &Due, mut call: AssignmentCall) -> Result<Reply, String> {
    let reply = call.run(library);
    same_reply(reply, due.reply())?;
    call.memory(reply)?;
    if reply == DONE {
        due.assignment(&call.values.left()[..call.n])?;
    }
    Ok(reply)
}

/// A call for a key, with these words as the table of the sheet.
fn key_call(key: Key, sheet: &Sheet, table: &[i64], random: &mut Random) -> KeyCall {
    let (table, workspace) = (lent_table(table, random), lent_free(size(sheet.n), random));
    KeyCall { key, n: sheet.n, hidden: sheet.hidden, table, workspace }
}

/// A table, at times with further words, which are of any value and no part of it.
fn lent_table(table: &[i64], random: &mut Random) -> Lent {
    let behind = further(random);
    let content = [table, &random.words(behind)].concat();
    Lent::new(&content, random)
}

/// Words to be written to, as many as needed or a few more.
fn lent_free(needed: usize, random: &mut Random) -> Lent {
    let length = needed + further(random);
    let content = random.words(length);
    Lent::new(&content, random)
}
