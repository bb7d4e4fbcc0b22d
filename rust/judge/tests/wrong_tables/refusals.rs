//! The refusals of marking two tables in their order, and the mistakes in them.

use super::{Trap, Wrong};
use judge::library::{too_short, Papers, Reply, EQUAL, MISMATCH, PAST_LIMIT, SIZE};
use judge::meaning::{rules, script_limit, size, LIMIT, MOST_QUANTITIES, NO_RULE};

impl Wrong {
    /// The reply, if it is given before the papers are compared.
    pub fn early(&self, papers: Papers, workspace: usize, values: usize) -> Option<Reply> {
        let Papers { n, sheet, script, .. } = papers;
        if self.trap == Trap::Accepts(n) && size(n) <= sheet.len() {
            return Some(Reply { number: EQUAL, value: 0 });
        }
        let counted = if self.trap == Trap::ScriptUncounted { sheet } else { script };
        if n == 0 || n > MOST_QUANTITIES || sheet.len().min(counted.len()) < size(n) {
            return Some(SIZE);
        }
        let (short, past, named) = (self.short(n, workspace, values), self.past(papers), self.named(papers));
        let order = match self.trap {
            Trap::SevenFirst => [short, named, past],
            Trap::LimitBeforeLength => [past, short, named],
            _ => [short, past, named],
        };
        order.into_iter().flatten().next()
    }

    fn short(&self, n: usize, workspace: usize, values: usize) -> Option<Reply> {
        let needed = if self.trap == Trap::WorkspaceOfKey { size(n) } else { 2 * size(n) };
        let told = if self.trap == Trap::LengthOfKey { size(n) } else { 2 * size(n) };
        let mut order = [(workspace < needed, told), (values < n, n)];
        if self.trap == Trap::ValuesFirst {
            order.reverse();
        }
        order.iter().find(|(short, _)| *short).map(|&(_, needed)| too_short(needed))
    }

    fn past(&self, Papers { n, hidden, sheet, script }: Papers) -> Option<Reply> {
        let of_sheet = if self.trap == Trap::SheetAsScript { script_limit(hidden) } else { LIMIT };
        let tested = match self.trap {
            Trap::LimitSkipsLast => size(n) - 1,
            Trap::LimitTestsBehind => script.len(),
            _ => size(n),
        };
        let out =
            |words: &[i64], limit: i64| words.iter().any(|&word| word != NO_RULE && (word > limit || word < -limit));
        let set = u64::from(hidden) >> n != 0 && self.trap != Trap::HiddenUntested;
        let past =
            set || out(&sheet[..size(n)], of_sheet) || out(&script[..tested.min(script.len())], self.limit(n, hidden));
        past.then_some(PAST_LIMIT)
    }

    /// The largest magnitude of a script's word.
    fn limit(&self, n: usize, hidden: u32) -> i64 {
        match self.trap {
            Trap::ScriptAsSheet => LIMIT,
            Trap::LimitByN => LIMIT << n,
            Trap::LimitDoubledOnce if hidden != 0 => 2 * LIMIT,
            Trap::LimitMoved(by) => script_limit(hidden) + by,
            _ => script_limit(hidden),
        }
    }

    fn named(&self, Papers { n, hidden, script, .. }: Papers) -> Option<Reply> {
        let named = rules(n, script).iter().any(|rule| rule.term.names(hidden));
        (named && self.trap != Trap::PassesNamed).then_some(Reply { number: MISMATCH, value: 0 })
    }
}
