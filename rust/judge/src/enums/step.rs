//! A hiding step on a table that holds its own words, and on a text, against the calls on lent words.

use super::table::{damaged, same, written};
use crate::library::{Header, Reply, Step, Stepper, Texts, DONE};
use crate::linked::Linked;
use crate::meaning::is_in;
use crate::random::Random;
use acornsled::limits::TABLE_WORDS;
use acornsled::Table;

/// Holds what the crate makes of a step against the call: on a text, on its table if it is read, and on the table damaged. Gives
/// the numbers that were replied.
pub fn text(text: &[u8], random: &mut Random) -> Result<Vec<u32>, String> {
    let read = Linked.read(text, &mut vec![0; TABLE_WORDS], &mut Header::default());
    let Ok(table) = Table::read(text) else {
        same(&acornsled::step(text, 1, 0), read, &vec![]).map_err(|e| format!("a step on a text: {e}"))?;
        return Ok(vec![]);
    };
    let step = drawn(table.quantities, random);
    let Step { before, quantity, blocks } = step;
    let lower = (1..quantity.min(table.quantities + 1)).filter(|&q| is_in(table.hidden, q));
    let own = Step { before: lower.fold(0, |set, q| set | 1 << (q - 1)), ..step };
    let (reply, due) = match called(&table, own) {
        (DONE, made) => written(&made),
        (refusal, _) => (refusal, vec![]),
    };
    same(&acornsled::step(text, quantity, blocks), reply, &due).map_err(|e| format!("{own:?} on a text: {e}"))?;
    let mut numbers = vec![];
    for table in [table.clone(), damaged(table, random)] {
        let (reply, due) = called(&table, step);
        same(&table.step(before, quantity, blocks), reply, &due).map_err(|e| format!("{step:?}: {e}"))?;
        numbers.push(reply.number);
    }
    Ok(numbers)
}

/// The reply to the call and its table.
fn called(table: &Table, step: Step) -> (Reply, Table) {
    let mut made = table.clone();
    let reply = Linked.step(made.quantities, step, &mut made.words, &mut vec![0; TABLE_WORDS]);
    (reply, made)
}

/// A step on n quantities; at times its set, its quantity or its blocks are past their limits.
fn drawn(n: usize, random: &mut Random) -> Step {
    let any = random.word() as u32;
    let before = if random.chance(90) { any & (u32::MAX >> (32 - n)) } else { any };
    let (quantity, blocks) = (1 + random.edge(n), random.below(n + 2));
    match random.below(10) {
        0 => Step { before, quantity: random.pick(&[0, n + 1, 33, 34, usize::MAX]), blocks },
        1 => Step { before, quantity, blocks: random.pick(&[n + 2, usize::MAX]) },
        _ => Step { before, quantity, blocks },
    }
}
