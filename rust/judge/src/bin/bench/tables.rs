//! The calls on one table. A workspace and an assignment are lent to all calls of a batch in turn, for what they hold
//! before a call does not matter to it.

use crate::papers::Pair;
use crate::times::{take_turns, timed, Batches, Side};
use judge::library::{Asker, Library, Reply, DONE};
use judge::linked::Linked;
use judge::meaning::{size, MOST_QUANTITIES, MOST_QUESTIONS};
use judge::plain;
use std::hint::black_box;

const MOST_WORDS: usize = size(MOST_QUANTITIES);

/// A call that replaces a table by a key, of n quantities with a hidden set, in a workspace.
type MakesKey = fn(usize, u32, &mut [i64], &mut [i64]) -> Reply;

/// Times the key of each sheet.
pub fn key(pairs: &[Pair]) -> Batches {
    keyed(pairs, |n, hidden, table, workspace| Linked.key(n, hidden, table, workspace), plain::key)
}

/// Times the tightest key of each sheet.
pub fn tight_key(pairs: &[Pair]) -> Batches {
    keyed(pairs, |n, hidden, table, workspace| Linked.tight_key(n, hidden, table, workspace), plain::tight_key)
}

fn keyed(pairs: &[Pair], library: MakesKey, plain: MakesKey) -> Batches {
    let mut tables: Vec<Vec<i64>> = pairs.iter().map(|pair| pair.sheet.table.clone()).collect();
    let mut workspace = [0; MOST_WORDS];
    take_turns(pairs.len(), |side| {
        // outside of the timing: the batch before has replaced the sheets by their keys
        for (table, pair) in tables.iter_mut().zip(pairs) {
            table.copy_from_slice(&pair.sheet.table);
        }
        timed(|| {
            tables.iter_mut().zip(pairs).all(|(table, Pair { sheet, .. })| {
                let (table, workspace) = (black_box(&mut table[..]), black_box(&mut workspace[..]));
                let call = match side {
                    Side::Library => library,
                    Side::Plain => plain,
                };
                call(sheet.n, sheet.hidden, table, workspace) == DONE
            })
        })
    })
}

/// Times an assignment of each sheet.
pub fn assignment(pairs: &[Pair]) -> Batches {
    let mut workspace = [0; MOST_WORDS];
    let mut values = [0; MOST_QUANTITIES];
    take_turns(pairs.len(), |side| {
        timed(|| {
            pairs.iter().all(|Pair { sheet, .. }| {
                let (workspace, values) = (black_box(&mut workspace[..]), black_box(&mut values[..]));
                let reply = match side {
                    Side::Library => Linked.assignment(sheet.n, &sheet.table, workspace, values),
                    Side::Plain => plain::assignment(sheet.n, &sheet.table, workspace, values),
                };
                reply == DONE
            })
        })
    })
}

/// Times as many questions to each sheet as may be.
pub fn ask_all(pairs: &[Pair]) -> Batches {
    asked(pairs, MOST_QUESTIONS)
}

/// Times one question to each sheet.
pub fn ask_one(pairs: &[Pair]) -> Batches {
    asked(pairs, 1)
}

/// Times the first questions of each list, so many, whose answers have to be the same from both sides.
fn asked(pairs: &[Pair], count: usize) -> Batches {
    let mut workspace = [0; MOST_WORDS];
    let lists: Vec<(&Pair, &[i64], u64)> = pairs
        .iter()
        .map(|pair| {
            let (Pair { sheet, questions, .. }, mut due) = (pair, 0);
            let list = &questions[..3 * count];
            assert_eq!(plain::ask(sheet.n, &sheet.table, list, &mut workspace, &mut due), DONE);
            (pair, list, due)
        })
        .collect();
    let mut answers = 0;
    take_turns(pairs.len(), |side| {
        timed(|| {
            lists.iter().all(|&(Pair { sheet, .. }, list, due)| {
                let (workspace, answers) = (black_box(&mut workspace[..]), black_box(&mut answers));
                let reply = match side {
                    Side::Library => Linked.ask(sheet.n, &sheet.table, list, workspace, answers),
                    Side::Plain => plain::ask(sheet.n, &sheet.table, list, workspace, answers),
                };
                reply == DONE && *answers == due
            })
        })
    })
}
