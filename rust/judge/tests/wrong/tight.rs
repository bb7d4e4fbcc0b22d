//! The tightest key by the sums of `judge::naive`, and the mistakes in it.

use super::{Trap, Wrong};
use judge::meaning::{is_in, terms, Term, LIMIT, NO_RULE};
use judge::naive::place;

impl Wrong {
    pub fn tight_table(&self, n: usize, hidden: u32, sheet: &[i64]) -> Vec<i64> {
        let mut key = match self.trap {
            Trap::TightensHidden => sheet.to_vec(),
            _ => self.hidden_table(n, hidden, sheet),
        };
        if self.trap == Trap::PlainForTight {
            return key;
        }
        if self.trap == Trap::StrengthensFirst {
            strengthen(n, &mut key);
        }
        for q in self.paired(n, hidden) {
            self.pair(n, q, &mut key);
            if self.trap == Trap::EmptiesPaired {
                self.blank(n, q, &mut key);
            }
        }
        if !matches!(self.trap, Trap::NeverStrengthens | Trap::StrengthensFirst) {
            strengthen(n, &mut key);
        }
        self.misprint(n, hidden, &mut key);
        key
    }

    /// The quantities whose rules are paired, in their order.
    fn paired(&self, n: usize, hidden: u32) -> Vec<usize> {
        let mut visible: Vec<usize> = (1..=n).filter(|&q| !is_in(hidden, q)).collect();
        match self.trap {
            Trap::TightensHidden => visible = (1..=n).collect(),
            Trap::StrengthensOnly => visible.clear(),
            Trap::PairsAllButLast => _ = visible.pop(),
            _ => {}
        }
        visible
    }

    /// Puts other bounds in the place of right ones.
    fn misprint(&self, n: usize, hidden: u32, key: &mut [i64]) {
        let alone = key.to_vec();
        let first = key.iter().position(|&word| word != NO_RULE);
        for (at, (word, term)) in key.iter_mut().zip(terms(n)).enumerate() {
            let held = *word != NO_RULE;
            *word = match self.trap {
                Trap::LeavesOut(most) if held && word.abs() > most => NO_RULE,
                Trap::LeavesOutLone if held && Some(*word) == of_lone(&alone, &term) => NO_RULE,
                Trap::BringsToLimit if held => (*word).clamp(-LIMIT, LIMIT),
                Trap::OneAbove if first == Some(at) => *word + 1,
                Trap::OneBelow if first == Some(at) => *word - 1,
                Trap::BoundsAll if !held && !term.names(hidden) => NO_RULE - 1,
                _ => *word,
            };
        }
    }
}

/// Bounds each sum of two literals by the sum of their own bounds.
fn strengthen(n: usize, key: &mut [i64]) {
    let alone = key.to_vec();
    for (word, term) in key.iter_mut().zip(terms(n)) {
        *word = (*word).min(of_lone(&alone, &term).unwrap_or(NO_RULE));
    }
}

/// The sum of the bounds of the two literals alone, if both have one.
fn of_lone(key: &[i64], term: &Term) -> Option<i64> {
    let [first, second] = [key[place(term.first)], key[place(term.second?)]];
    (first != NO_RULE && second != NO_RULE).then(|| first + second)
}
