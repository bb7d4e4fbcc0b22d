//! What a call is given, and the first refusal that is due.

use crate::graph::Closure;
use crate::lent::further;
use crate::library::{too_short, Reply, Step, NO_ASSIGNMENT, PAST_LIMIT, SIZE};
use crate::meaning::{is_in, rules, size, LIMIT, MOST_QUANTITIES};
use crate::random::Random;
use crate::sheets::Sheet;
use std::fmt;

/// The table with all its words, of the workspace only how many are lent.
#[derive(Clone)]
pub struct Given {
    pub n: usize,
    pub step: Step,
    pub table: Vec<i64>,
    pub workspace: usize,
}

/// A reply for which there is reason, and the reason in words.
pub struct Reason {
    pub reply: Reply,
    pub name: &'static str,
}

impl Given {
    /// A call with nothing wrong but what the sheet itself has. At times more is lent than needed, and what stands behind the
    /// table is no part of it.
    pub fn sound(sheet: &Sheet, step: Step, random: &mut Random) -> Given {
        let behind = further(random);
        let table = [&sheet.table[..], &random.words(behind)].concat();
        Given { n: sheet.n, step, table, workspace: size(sheet.n) + further(random) }
    }

    /// All that speaks against the call, in the order in which it is to be seen: the first decides. Of an n that is refused
    /// nothing more can be said, and of a table that is too short not whether it has an assignment.
    pub fn reasons(&self) -> Vec<Reason> {
        if !(1..=MOST_QUANTITIES).contains(&self.n) {
            return vec![Reason { reply: SIZE, name: "1 n" }];
        }
        let Step { before, quantity, blocks } = self.step;
        let n = self.n;
        let held = rules(n, &self.table);
        let short = self.table.len() < size(n);
        let all = [
            (short, SIZE, "1 table"),
            (self.workspace < size(n), too_short(size(n)), "6"),
            ((n + 1..=MOST_QUANTITIES).any(|q| is_in(before, q)), PAST_LIMIT, "3 set"),
            (held.iter().any(|rule| !(-LIMIT..=LIMIT).contains(&rule.bound)), PAST_LIMIT, "3 table"),
            (!(1..=n).any(|q| q == quantity), PAST_LIMIT, "3 quantity"),
            (!(0..=n + 1).any(|done| done == blocks), PAST_LIMIT, "3 blocks"),
            (!short && Closure::of(n, &held).is_none(), NO_ASSIGNMENT, "5"),
        ];
        all.into_iter().filter(|(met, ..)| *met).map(|(_, reply, name)| Reason { reply, name }).collect()
    }

    /// The sheet of a call that is not refused before 5, with the set that is hidden before.
    pub fn sheet(&self) -> Sheet {
        Sheet { n: self.n, hidden: self.step.before, table: self.table[..size(self.n)].to_vec() }
    }
}

impl fmt::Display for Given {
    fn fmt(&self, f: &mut fmt::Formatter) -> fmt::Result {
        let Given { n, step: Step { before, quantity, blocks }, table, workspace } = self;
        writeln!(f, "n={n} before={before:#x} quantity={quantity} blocks={blocks} table={table:?}")?;
        writeln!(f, "words: table {}, workspace {workspace}", table.len())
    }
}
