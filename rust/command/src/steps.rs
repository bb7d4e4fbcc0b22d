//! `acornsled steps`: the steps that hide a sheet's quantities for its key, one block after another.

use crate::reason::hidden::Hidden;
use crate::source::Source;
use crate::status::Status;
use crate::{arguments, output, usage, visible};
use acornsled::limits::NO_RULE;
use acornsled::{Refusal, Table};
use std::ffi::{OsStr, OsString};
use std::fmt::Write;

/// The lines of a text before its rules.
const HEADER_LINES: usize = 3;

/// Prints the steps or the refusal, and tells why it is refused.
pub fn run(given: &[OsString]) -> Status {
    // how many there are is told in the words of this command
    let (sheet, quantity) = match arguments::files(given, &usage::STEPS, 0..=usize::MAX).as_deref() {
        Ok([sheet]) => (*sheet, None),
        Ok([sheet, quantity]) => (*sheet, Some(*quantity)),
        Ok(more) => return usage::wrong(usage::STEPS.usage, &miscounted(more.len())),
        Err(status) => return *status,
    };
    let source = Source::of(sheet);
    let sheet = source.held(source.to_string());
    let table = match keyed(&sheet.bytes) {
        Ok(table) => table,
        Err(refusal) => return sheet.refuse(refusal),
    };
    let hidden = Hidden(table.hidden).quantities();
    match quantity {
        Some(named) => match hidden.iter().find(|hidden| named.to_str() == Some(&hidden.to_string())) {
            Some(&quantity) => output::answer(step(&table, quantity).as_bytes()),
            None => usage::wrong(usage::STEPS.usage, &not_hidden(named, &hidden)),
        },
        None => {
            if hidden.is_empty() {
                output::tell(&format!("{}: no quantity is hidden, so that there are no steps", sheet.name));
            }
            all(&table, &hidden)
        }
    }
}

/// The sheet's table. One that has no key has no steps to it either, also where nothing is hidden.
fn keyed(sheet: &[u8]) -> Result<Table, Refusal> {
    let table = Table::read(sheet)?;
    table.clone().key()?;
    Ok(table)
}

/// Prints the steps of all these, each as soon as it is made, for together they can be long.
fn all(table: &Table, hidden: &[usize]) -> Status {
    let mut each = hidden.iter().map(|&quantity| output::answer(step(table, quantity).as_bytes()));
    // where one is lost the further ones would be as well
    each.find(|&status| status != Status::Answered).unwrap_or(Status::Answered)
}

/// What is printed for the step of one quantity: the table before it, after each block and at its end.
fn step(sheet: &Table, quantity: usize) -> String {
    let before = sheet.hidden & ((1 << (quantity - 1)) - 1);
    let after = |blocks: usize| {
        let table = sheet.clone().step(before, quantity, blocks);
        table.expect("a sheet that has a key has every step to it")
    };
    let mut last = after(0);
    let mut printed = format!("hide={quantity}\nbefore=block 1\n{}", rules(&last, None));
    for block in 1..=sheet.quantities {
        let table = after(block);
        _ = write!(printed, "after=block {block}\n{}", rules(&table, Some(&last)));
        last = table;
    }
    printed + "after=clearing\n" + &rules(&after(sheet.quantities + 1), None)
}

/// A line for each rule of a table, by its place, as the library writes it. Where the bound was another one in the table before,
/// that is told behind it.
fn rules(table: &Table, before: Option<&Table>) -> String {
    let text = table.text().expect("every table that a step makes can be written");
    let text = String::from_utf8(text).expect("a text that is written is ASCII");
    let held: Vec<usize> = (0..table.words.len()).filter(|&place| table.words[place] != NO_RULE).collect();
    // a line of another place would be told with its number
    assert_eq!(text.lines().count(), HEADER_LINES + held.len(), "every rule of a table is written");
    let line = |(place, rule): (usize, &str)| match before.map(|before| before.words[place]) {
        Some(NO_RULE) => format!("place={place} {rule} was=\n"),
        Some(bound) if bound != table.words[place] => format!("place={place} {rule} was={bound}\n"),
        _ => format!("place={place} {rule}\n"),
    };
    held.into_iter().zip(text.lines().skip(HEADER_LINES)).map(line).collect()
}

fn miscounted(given: usize) -> String {
    match given {
        0 => "no sheet is named".to_string(),
        _ => format!("a sheet and at most one quantity are due, and {given} arguments are given"),
    }
}

fn not_hidden(named: &OsStr, hidden: &[usize]) -> String {
    let numbers: Vec<String> = hidden.iter().map(|quantity| quantity.to_string()).collect();
    let due = match &numbers[..] {
        [] => "the sheet hides no quantity".to_string(),
        [one] => format!("the sheet hides quantity {one} alone"),
        [first @ .., last] => format!("the sheet hides quantities {} and {last}", first.join(", ")),
    };
    // nothing at all would be seen of an empty one
    let shown = if named.is_empty() { "''".to_string() } else { visible::name(named) };
    format!("{shown} is no quantity that is hidden: {due}")
}
