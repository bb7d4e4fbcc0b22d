//! A library that puts the sums of rules in block by block, and falls into one of the traps of a hiding step.

mod refusals;
mod sums;
mod trap;

use judge::library::{Reply, Step, Stepper, DONE, NO_ASSIGNMENT};
use judge::meaning::{size, LIMIT, NO_RULE};
pub use trap::Trap;

pub struct Wrong(pub Trap);

impl Stepper for Wrong {
    fn step(&self, n: usize, step: Step, table: &mut [i64], workspace: &mut [i64]) -> Reply {
        let reply = self.early(n, step, table, workspace.len()).unwrap_or_else(|| {
            let sheet: Vec<i64> = table[..size(n)].iter().map(within).collect();
            match self.stepped(n, named(n, step), &sheet) {
                None => NO_ASSIGNMENT,
                Some(words) => {
                    table[..size(n)].copy_from_slice(&words);
                    spoil(&mut table[size(n)..], self.0 == Trap::WritesPastTable);
                    spoil(&mut workspace[size(n)..], self.0 == Trap::WritesPastWorkspace);
                    DONE
                }
            }
        });
        spoil(table, self.0 == Trap::TableLost(reply.number));
        spoil(workspace, self.0 == Trap::WorkspaceLost(reply.number));
        match self.0 == Trap::ValueBeside(reply.number) {
            true => Reply { value: 1, ..reply },
            false => reply,
        }
    }
}

/// A word within the limits, for what a library does with others that it lets through does not matter.
fn within(word: &i64) -> i64 {
    if *word == NO_RULE {
        NO_RULE
    } else {
        (*word).clamp(-LIMIT, LIMIT)
    }
}

/// A step that there is on n quantities, in the place of one that is let through.
fn named(n: usize, Step { before, quantity, blocks }: Step) -> Step {
    let all = u32::MAX >> (32 - n);
    Step { before: before & all, quantity: quantity.clamp(1, n), blocks: blocks.min(n + 1) }
}

/// Changes the first of these words, if there is one and it is due.
fn spoil(words: &mut [i64], due: bool) {
    if due {
        words.iter_mut().take(1).for_each(|word| *word = !*word);
    }
}
