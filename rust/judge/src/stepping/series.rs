//! What is to hold between the tables of one hiding step, from no block done to its end, by document 02's words and not by the sums
//! of rules.

use crate::brute;
use crate::calls::same_words;
use crate::graph::{self, Closure};
use crate::meaning::{rules, size, terms, NO_RULE};
use crate::plain;
use crate::sheets::Sheet;

/// Judges the tables after 0 blocks, after 1, and so on to n + 1, of the step that hides this quantity after the sheet's hidden
/// ones.
pub fn holds(sheet: &Sheet, quantity: usize, tables: &[Vec<i64>]) -> Result<(), String> {
    let (n, own) = (sheet.n, 1 << (quantity - 1));
    let [first, .., last, end] = tables else {
        return Err("the judges differ: a step has three tables or more".into());
    };
    same_words(first, &key(sheet, sheet.hidden)?).map_err(|e| format!("before the first block: {e}"))?;
    let named: Vec<bool> = terms(n).iter().map(|term| term.names(own)).collect();
    for block in 1..=n {
        changed(block, &tables[block - 1], &tables[block])?;
        left(block, &named, &tables[block], end)?;
    }
    for (place, &named) in named.iter().enumerate() {
        if let Some(done) = (1..=n).find(|&done| named && tables[done][place] != first[place]) {
            return Err(format!("place {place}, which names the quantity, is changed after {done} of {n} blocks"));
        }
        let due = if named { NO_RULE } else { last[place] };
        if end[place] != due {
            return Err(format!("place {place}: word {} at the end, due {due}", end[place]));
        }
    }
    if sheet.hidden < own {
        same_words(end, &key(sheet, sheet.hidden | own)?).map_err(|e| format!("the key with the quantity: {e}"))?;
    }
    if sheet.hidden & own != 0 {
        same_words(end, first).map_err(|e| format!("a quantity that is hidden already: {e}"))?;
    }
    means(sheet, own, tables)
}

/// Has the work on this block changed words of it alone, and only to smaller ones?
fn changed(block: usize, before: &[i64], after: &[i64]) -> Result<(), String> {
    let within = size(block - 1)..size(block);
    let outside = (0..after.len()).find(|place| after[*place] != before[*place] && !within.contains(place));
    if let Some(place) = outside {
        return Err(format!("place {place} is changed with block {block}"));
    }
    match within.clone().find(|&place| after[place] > before[place]) {
        Some(place) => Err(format!("place {place}: word {}, which was {}", after[place], before[place])),
        None => Ok(()),
    }
}

/// Is each word of this block that does not name the quantity what it is at the end?
fn left(block: usize, named: &[bool], done: &[i64], end: &[i64]) -> Result<(), String> {
    match (size(block - 1)..size(block)).find(|&place| !named[place] && done[place] != end[place]) {
        Some(place) => {
            Err(format!("place {place}: word {} after block {block}, {} at the end", done[place], end[place]))
        }
        None => Ok(()),
    }
}

/// The plain key in ordinary Rust.
fn key(sheet: &Sheet, hidden: u32) -> Result<Vec<i64>, String> {
    let (mut table, mut workspace) = (sheet.table.clone(), vec![0; size(sheet.n)]);
    match plain::key(sheet.n, hidden, &mut table, &mut workspace).number {
        0 => Ok(table),
        number => Err(format!("the judges differ: plain gives {number} for a key")),
    }
}

/// Sums follow from the rules that they are made of: until the end every table is met by the same integers as the first, and then
/// by just those that some integer for the quantity completes.
fn means(sheet: &Sheet, own: u32, tables: &[Vec<i64>]) -> Result<(), String> {
    let n = sheet.n;
    let closure = |table: &Vec<i64>| Closure::of(n, &rules(n, table)).ok_or("a table allows no integers".to_string());
    let (first, end) = (closure(&tables[0])?, tables.len() - 1);
    // all of a small sheet, of a large one those that are next to the ends
    for done in (1..=end).filter(|&done| n <= 4 || [1, end - 1, end].contains(&done)) {
        let hidden = if done == end { own } else { 0 };
        if let Some((term, was, is)) = graph::difference(n, hidden, &first, &closure(&tables[done])?) {
            return Err(format!("least bound of {term}: {was:?}, after {done} blocks {is:?}"));
        }
    }
    let (held, left) = (rules(n, &tables[0]), rules(n, &tables[end]));
    if brute::fits(n, &held) {
        if let Some(values) = brute::wrong_on(n, own, &held, &left) {
            return Err(format!("at the end wrong on the integers of {values:?}"));
        }
    }
    Ok(())
}
