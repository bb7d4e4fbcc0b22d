//! Does the library keep anything between calls, or share it between two? The same input is given again, in turn and from
//! two threads at once, and has to come to the same. Integers are free, so that what they owe to other calls shows here
//! only.

use crate::counts::Counts;
use crate::library::{Key, Library, Reply};
use crate::meaning::size;
use crate::random::Random;
use crate::sheets::Sheet;
use std::sync::Barrier;
use std::thread;

/// How often each thread goes through its sheets.
const ROUNDS: usize = 3;

/// Calls a sheet again after itself and after another one, then over and over while a second thread calls both.
pub fn none_kept(library: &dyn Library, sheet: &Sheet, random: &mut Random, counts: &mut Counts) -> Result<(), String> {
    let one = Called::alone(library, sheet);
    one.again(library).map_err(|e| format!("again: {e}"))?;
    let further = Sheet::any(random);
    let other = Called::alone(library, &further);
    one.again(library).map_err(|e| format!("again: {e}"))?;
    at_once(library, &[&one], &[&one, &other]).map_err(|e| format!("at once: {e}"))?;
    counts.repeated += 1;
    Ok(())
}

/// Calls the first sheets on this thread and the second ones on another. Both begin when both are ready.
fn at_once(library: &dyn Library, first: &[&Called], second: &[&Called]) -> Result<(), String> {
    let ready = Barrier::new(2);
    let repeat = |sheets: &[&Called]| {
        ready.wait();
        (0..ROUNDS).try_for_each(|_| sheets.iter().try_for_each(|called| called.again(library)))
    };
    thread::scope(|scope| {
        let beside = scope.spawn(|| repeat(second));
        let here = repeat(first);
        beside.join().expect("a call panics on the second thread").and(here)
    })
}

/// A sheet and what the three calls on it have come to. The workspace is no part of it, for its content is free.
struct Called<'a> {
    sheet: &'a Sheet,
    /// of each key the reply and the words
    keys: [(Reply, Vec<i64>); 2],
    assignment: Reply,
    values: Vec<i64>,
}

impl Called<'_> {
    /// The same words are lent each time, so that nothing but state can make a difference.
    fn alone<'a>(library: &dyn Library, sheet: &'a Sheet) -> Called<'a> {
        let n = sheet.n;
        let keys = Key::BOTH.map(|key| {
            let mut table = sheet.table.clone();
            (library.keyed(key, n, sheet.hidden, &mut table, &mut vec![0; size(n)]), table)
        });
        let mut values = vec![0; n];
        let assignment = library.assignment(n, &sheet.table, &mut vec![0; size(n)], &mut values);
        Called { sheet, keys, assignment, values }
    }

    fn again(&self, library: &dyn Library) -> Result<(), String> {
        let again = Called::alone(library, self.sheet);
        let [(key, table), (tight_key, tight_table)] = &self.keys;
        let parts = [
            ("the key's reply", again.keys[0].0 == *key),
            ("the key's words", again.keys[0].1 == *table),
            ("the tight key's reply", again.keys[1].0 == *tight_key),
            ("the tight key's words", again.keys[1].1 == *tight_table),
            ("the assignment's reply", again.assignment == self.assignment),
            ("the assignment's words", again.values == self.values),
        ];
        match parts.iter().find(|(_, same)| !same) {
            Some((part, _)) => Err(format!("not as before: {part}\n{}", self.sheet)),
            None => Ok(()),
        }
    }
}
