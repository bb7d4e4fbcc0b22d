//! A library over `judge::naive` that falls into one of the traps that the judge has to see.

mod refusals;
mod steps;
mod tight;
mod trap;

use judge::library::{Key, Library, Reply, DONE, NO_ASSIGNMENT, SIZE};
use judge::meaning::{rules, size, LIMIT, NO_RULE};
use judge::plain;
use std::sync::atomic::{AtomicUsize, Ordering::SeqCst};
pub use trap::Trap;

pub struct Wrong {
    trap: Trap,
    /// the assignments that have been found
    assignments: AtomicUsize,
    /// the calls that are being made
    under_way: AtomicUsize,
}

impl Library for Wrong {
    fn key(&self, n: usize, hidden: u32, table: &mut [i64], workspace: &mut [i64]) -> Reply {
        self.call_for(Key::Plain, n, hidden, table, workspace)
    }

    fn tight_key(&self, n: usize, hidden: u32, table: &mut [i64], workspace: &mut [i64]) -> Reply {
        self.call_for(Key::Tight, n, hidden, table, workspace)
    }

    fn assignment(&self, n: usize, table: &[i64], workspace: &mut [i64], values: &mut [i64]) -> Reply {
        let beside = self.under_way.fetch_add(1, SeqCst) > 0;
        let reply = self.assigned(self.narrowed(n), table, workspace, values);
        self.under_way.fetch_sub(1, SeqCst);
        spoil(workspace, self.trap == Trap::WorkspaceLost(reply.number));
        spoil(values, self.trap == Trap::ValuesLost(reply.number));
        self.told(reply, beside)
    }
}

impl Wrong {
    pub fn new(trap: Trap) -> Wrong {
        Wrong { trap, assignments: AtomicUsize::new(0), under_way: AtomicUsize::new(0) }
    }

    /// A call for a key, with what befalls it on its way to the caller.
    fn call_for(&self, key: Key, n: usize, hidden: u32, table: &mut [i64], workspace: &mut [i64]) -> Reply {
        let beside = self.under_way.fetch_add(1, SeqCst) > 0;
        let reply = self.made(key, self.narrowed(n), hidden, table, workspace);
        self.under_way.fetch_sub(1, SeqCst);
        spoil(table, self.trap == Trap::TableLost(reply.number) || beside && self.trap == Trap::MixesCalls);
        spoil(workspace, self.trap == Trap::WorkspaceLost(reply.number));
        self.told(reply, beside)
    }

    fn made(&self, key: Key, n: usize, hidden: u32, table: &mut [i64], workspace: &mut [i64]) -> Reply {
        if let Some(reply) = self.early(n, hidden, table, workspace.len(), n) {
            return reply;
        }
        let sheet = taken(&table[..size(n)]);
        if !self.satisfiable(n, hidden, &sheet) {
            return NO_ASSIGNMENT;
        }
        table[..size(n)].copy_from_slice(&match key {
            Key::Plain => self.hidden_table(n, hidden, &sheet),
            Key::Tight => self.tight_table(n, hidden, &sheet),
        });
        spoil(&mut table[size(n)..], self.trap == Trap::WritesPastTable);
        spoil(&mut workspace[size(n)..], self.trap == Trap::WritesPastWorkspace);
        DONE
    }

    fn assigned(&self, n: usize, table: &[i64], workspace: &mut [i64], values: &mut [i64]) -> Reply {
        if let Some(reply) = self.early(n, 0, table, workspace.len(), values.len()) {
            return reply;
        }
        let sheet = taken(&table[..size(n)]);
        if !self.satisfiable(n, u32::MAX, &sheet) {
            return NO_ASSIGNMENT;
        }
        // finding integers is not what is tried here; where there are none the values stay
        plain::assignment(n, &sheet, workspace, values);
        self.misput(n, &sheet, workspace, values);
        spoil(&mut values[n..], self.trap == Trap::WritesPastValues);
        DONE
    }

    /// Puts other integers in the place of right ones.
    fn misput(&self, n: usize, sheet: &[i64], workspace: &mut [i64], values: &mut [i64]) {
        match self.trap {
            Trap::Zeros => values[..n].fill(0),
            Trap::PutsFree(integer) => {
                let held = rules(n, sheet);
                let free = (1..=n).find(|&q| !held.iter().any(|rule| rule.term.quantities().any(|named| named == q)));
                free.into_iter().for_each(|q| values[q - 1] = integer);
            }
            Trap::OtherIntegersNextTime if self.assignments.fetch_add(1, SeqCst) % 2 == 1 => {
                // the first quantity has to be smaller; the values stay where it cannot be
                let mut lower = sheet.to_vec();
                lower[0] = values[0] - 1;
                plain::assignment(n, &lower, workspace, values);
            }
            _ => {}
        }
    }

    fn narrowed(&self, n: usize) -> usize {
        match self.trap {
            Trap::NarrowsN => n as u32 as usize,
            _ => n,
        }
    }

    /// The reply as it reaches the caller.
    fn told(&self, reply: Reply, beside: bool) -> Reply {
        if beside && self.trap == Trap::RefusesSecondCaller {
            return SIZE;
        }
        match self.trap == Trap::ValueBeside(reply.number) {
            true => Reply { value: 1, ..reply },
            false => reply,
        }
    }
}

/// A library that falls into its trap in the call for a tightest key alone.
pub struct InTightKey {
    wrong: Wrong,
    right: Wrong,
}

impl InTightKey {
    pub fn new(trap: Trap) -> InTightKey {
        InTightKey { wrong: Wrong::new(trap), right: Wrong::new(Trap::Nothing) }
    }
}

impl Library for InTightKey {
    fn key(&self, n: usize, hidden: u32, table: &mut [i64], workspace: &mut [i64]) -> Reply {
        self.right.key(n, hidden, table, workspace)
    }

    fn tight_key(&self, n: usize, hidden: u32, table: &mut [i64], workspace: &mut [i64]) -> Reply {
        self.wrong.tight_key(n, hidden, table, workspace)
    }

    fn assignment(&self, n: usize, table: &[i64], workspace: &mut [i64], values: &mut [i64]) -> Reply {
        self.right.assignment(n, table, workspace, values)
    }
}

/// The words that a library goes on with which lets some past the limit. They are brought within it, for what else it does
/// with them does not matter.
fn taken(table: &[i64]) -> Vec<i64> {
    let within = |&word: &i64| if word == NO_RULE { word } else { word.clamp(-LIMIT, LIMIT) };
    table.iter().map(within).collect()
}

/// Changes the first of these words, if there is one and it is due.
fn spoil(words: &mut [i64], due: bool) {
    if due {
        words.iter_mut().take(1).for_each(|word| *word = !*word);
    }
}
