//! Tables that hold their own words, against the calls on lent ones: reading, both keys, the integers, writing, and the texts
//! of both keys of a text.

use crate::library::{spelled, Header, Key, Library, Reply, Texts, DONE};
use crate::linked::Linked;
use crate::meaning::{size, LIMIT, MOST_QUANTITIES};
use crate::random::Random;
use acornsled::limits::{TABLE_WORDS, TEXT_BYTES};
use acornsled::{Refusal, Table};

/// Holds what the crate makes of a text against the calls. Gives whether the text is read.
pub fn text(text: &[u8], random: &mut Random) -> Result<bool, String> {
    let mut header = Header { quantities: 0, hidden: 0 };
    let mut words = vec![0; TABLE_WORDS];
    let reply = Linked.read(text, &mut words, &mut header);
    words.truncate(size(header.quantities));
    let due = Table { quantities: header.quantities, hidden: header.hidden, words };
    same(&Table::read(text), reply, &due).map_err(|e| format!("reading: {e}"))?;
    for key in Key::BOTH {
        let (reply, key_text) = if reply == DONE { keyed(key, &due) } else { (reply, vec![]) };
        let answer = match key {
            Key::Plain => acornsled::key(text),
            Key::Tight => acornsled::tight_key(text),
        };
        same(&answer, reply, &key_text).map_err(|e| format!("{} of the text: {e}", key.name()))?;
    }
    if reply != DONE {
        return Ok(false);
    }
    table(&due)?;
    table(&damaged(due, random))?;
    Ok(true)
}

/// Holds the four functions of a table against the calls.
fn table(table: &Table) -> Result<(), String> {
    let Table { quantities: n, hidden, words } = table;
    let mut workspace = vec![0; TABLE_WORDS];
    for key in Key::BOTH {
        let mut due = table.clone();
        let reply = Linked.keyed(key, *n, *hidden, &mut due.words, &mut workspace);
        let answer = match key {
            Key::Plain => table.clone().key(),
            Key::Tight => table.clone().tight_key(),
        };
        same(&answer, reply, &due).map_err(|e| format!("{}: {e}", key.name()))?;
    }
    let mut values = vec![0; MOST_QUANTITIES];
    let reply = Linked.assignment(*n, words, &mut workspace, &mut values);
    values.truncate(*n);
    same(&table.assignment(), reply, &values).map_err(|e| format!("assignment: {e}"))?;
    let (reply, text) = written(table);
    same(&table.text(), reply, &text).map_err(|e| format!("writing: {e}"))
}

/// The reply to the last of the calls that make the text of a key, and that text.
fn keyed(key: Key, table: &Table) -> (Reply, Vec<u8>) {
    let mut made = table.clone();
    match Linked.keyed(key, made.quantities, made.hidden, &mut made.words, &mut vec![0; TABLE_WORDS]) {
        DONE => written(&made),
        refusal => (refusal, vec![]),
    }
}

pub(super) fn written(table: &Table) -> (Reply, Vec<u8>) {
    let mut out = vec![0; TEXT_BYTES];
    let reply = Linked.write(table.quantities, table.hidden, &table.words, &mut out);
    out.truncate(reply.value);
    (reply, out)
}

/// The table with n, the hidden set or a word past its limit, or without its last word.
pub(super) fn damaged(mut table: Table, random: &mut Random) -> Table {
    match random.below(4) {
        0 => table.quantities = random.pick(&[0, table.quantities + 1, MOST_QUANTITIES + 1, usize::MAX]),
        1 => table.hidden |= u32::MAX << random.below(MOST_QUANTITIES),
        2 => {
            let place = random.edge(table.words.len());
            table.words[place] = random.pick(&[LIMIT + 1, -LIMIT - 1, i64::MIN]);
        }
        _ => _ = table.words.pop(),
    }
    table
}

/// Is this the answer where the reply is no refusal, and else the refusal?
pub fn same<T: PartialEq>(answer: &Result<T, Refusal>, reply: Reply, due: &T) -> Result<(), String> {
    match answer {
        Ok(found) if reply.number == DONE.number && found == due => Ok(()),
        Ok(_) if reply.number == DONE.number => Err("another answer than the call's".into()),
        Ok(_) => Err(format!("an answer, where the call replies {}", spelled(reply))),
        Err(refusal) => same_refusal(*refusal, reply),
    }
}

/// Is this the refusal that a call replies, with its line or length?
pub fn same_refusal(refusal: Refusal, reply: Reply) -> Result<(), String> {
    let (number, value) = match refusal {
        Refusal::Size => (1, 0),
        Refusal::Malformed { line } => (2, line),
        Refusal::OutOfLimit { line } => (3, line),
        Refusal::Cancelling { line } => (4, line),
        Refusal::NoAssignment => (5, 0),
        Refusal::TooShort { needed } => (6, needed),
        Refusal::Mismatch => (7, 0),
        Refusal::ListSize => (8, 0),
        Refusal::NotCanonical { line } => (9, line),
        // the crate's users have to expect further ones
        _ => (0, 0),
    };
    let line = if number == 6 { 0 } else { value };
    if reply != (Reply { number, value }) || refusal.number() != number || refusal.line() != line {
        let (found, at) = (refusal.number(), refusal.line());
        return Err(format!("{refusal:?}, with number {found} and line {at}, due {}", spelled(reply)));
    }
    if !refusal.to_string().starts_with(&format!("refused with {number}")) {
        return Err(format!("{refusal:?} is told as '{refusal}'"));
    }
    Ok(())
}
