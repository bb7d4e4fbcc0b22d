//! A library over the plain one that falls into one of the traps of marking two tables.

mod refusals;
mod trap;

use judge::library::{Papers, Reply, TableMarker, EQUAL, LOOSE, NOTHING, NO_ASSIGNMENT, TIGHT};
use judge::meaning::{is_in, rules, script_limit, size, terms, LIMIT, MOST_QUANTITIES, NO_RULE};
use judge::naive;
use judge::plain_tables;
use std::sync::atomic::{AtomicI64, Ordering::SeqCst};
pub use trap::Trap;

pub struct Wrong {
    trap: Trap,
    calls: AtomicI64,
}

impl TableMarker for Wrong {
    fn mark_tables(&self, papers: Papers, workspace: &mut [i64], values: &mut [i64], rule: &mut [i64; 3]) -> Reply {
        let before = *rule;
        let (reply, refused) = match self.early(papers, workspace.len(), values.len()) {
            Some(reply) => (reply, true),
            None => (self.verdict(papers, values, rule), false),
        };
        if !refused {
            self.rule(reply.number, before, rule);
            self.integers(papers, reply.number, values);
            if self.trap == Trap::WritesPastWorkspace {
                spoil(&mut workspace[2 * size(papers.n)..], true);
            }
        }
        if self.trap == Trap::RuleWhenRefused(reply.number) {
            *rule = NOTHING;
        }
        spoil(values, self.trap == Trap::ValuesLost(reply.number));
        spoil(workspace, self.trap == Trap::WorkspaceLost(reply.number));
        match self.trap == Trap::ValueBeside(reply.number) {
            true => Reply { value: 1, ..reply },
            false => reply,
        }
    }
}

impl Wrong {
    pub fn new(trap: Trap) -> Wrong {
        Wrong { trap, calls: AtomicI64::new(0) }
    }

    /// The verdict on what the library goes on with which lets too much through: words are brought within their limits, and
    /// rules that name a hidden quantity are dropped.
    fn verdict(&self, papers: Papers, values: &mut [i64], rule: &mut [i64; 3]) -> Reply {
        let n = papers.n;
        let hidden = papers.hidden & (u32::MAX >> (MOST_QUANTITIES - n));
        let visible: Vec<bool> = terms(n).iter().map(|term| !term.names(hidden)).collect();
        let within = |limit: i64| move |&word: &i64| if word == NO_RULE { word } else { word.clamp(-limit, limit) };
        let mut sheet: Vec<i64> = papers.sheet[..size(n)].iter().map(within(LIMIT)).collect();
        let mut script: Vec<i64> = papers.script.iter().map(within(script_limit(hidden))).collect();
        script.resize(size(n), NO_RULE);
        let blank =
            |table: &mut [i64]| table.iter_mut().zip(&visible).filter(|(_, v)| !**v).for_each(|(w, _)| *w = NO_RULE);
        blank(&mut script);
        if self.trap == Trap::VisibleRules {
            blank(&mut sheet);
        }
        if self.trap == Trap::NoSheetFive && naive::key(n, hidden, &sheet).is_none() {
            return NO_ASSIGNMENT;
        }
        let papers = Papers { n, hidden, sheet: &sheet, script: &script };
        let Reply { number, value } = plain_tables::mark_tables(papers, &vec![0; 2 * size(n)], values, rule);
        let number = match (self.trap, number) {
            (Trap::Always(number), _) => number,
            (Trap::Exchanged, LOOSE) => TIGHT,
            (Trap::Exchanged, TIGHT) => LOOSE,
            _ => number,
        };
        Reply { number, value }
    }

    fn rule(&self, number: u32, before: [i64; 3], rule: &mut [i64; 3]) {
        let [first, second, bound] = *rule;
        *rule = match (self.trap, number) {
            (Trap::RuleWhenEqual, EQUAL) => NOTHING,
            (_, EQUAL) => return,
            (Trap::RuleUnwritten, _) => before,
            (Trap::NoRuleWord, _) if *rule == NOTHING => [0, 0, NO_RULE],
            _ if *rule == NOTHING => return,
            (Trap::RuleExchanged, _) if second != 0 => [second, first, bound],
            (Trap::BoundFirst, _) => [bound, first, second],
            (Trap::RuleWithinLimit, _) => [first, second, bound.clamp(-LIMIT, LIMIT)],
            _ => return,
        };
    }

    fn integers(&self, Papers { n, hidden, sheet, script }: Papers, number: u32, values: &mut [i64]) {
        match (self.trap, number) {
            // a script without rules allows all integers; this sheet of one quantity allows none below
            (Trap::Others, LOOSE) if n == 1 && hidden == 0 && rules(n, script).is_empty() && sheet[1] != NO_RULE => {
                values[0] -= self.calls.fetch_add(1, SeqCst);
            }
            (Trap::ValuesPastN, LOOSE | TIGHT) => spoil(&mut values[n..], true),
            (Trap::HiddenOne, LOOSE) => (1..=n).filter(|&q| is_in(hidden, q)).for_each(|q| values[q - 1] = 1),
            (Trap::Zeros, TIGHT) => values[..n].fill(0),
            _ => {}
        }
    }
}

/// Changes the first of these words, if there is one and it is due.
fn spoil(words: &mut [i64], due: bool) {
    if due {
        words.iter_mut().take(1).for_each(|word| *word = !*word);
    }
}
