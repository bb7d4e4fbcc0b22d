//! Hiding and the decision of 5 by the sums of `judge::naive`, and the mistakes in them.

use super::{Trap, Wrong};
use judge::meaning::{is_in, rules, terms, NO_RULE};
use judge::naive::{place, sums, Sum};

impl Wrong {
    pub fn satisfiable(&self, n: usize, hidden: u32, sheet: &[i64]) -> bool {
        match self.trap {
            Trap::AlwaysFive => return false,
            Trap::NeverFive => return true,
            _ => {}
        }
        let mut table = sheet.to_vec();
        let gone = |q: &usize| self.trap != Trap::DecidesOnHiddenOnly || is_in(hidden, *q);
        (1..=n).filter(gone).all(|q| self.hide(n, q, &mut table))
    }

    pub fn hidden_table(&self, n: usize, hidden: u32, sheet: &[i64]) -> Vec<i64> {
        let mut key = sheet.to_vec();
        let mut order: Vec<usize> = (1..=n).filter(|&q| is_in(hidden, q)).collect();
        match self.trap {
            Trap::EmptyKey => key.fill(NO_RULE),
            Trap::SheetAsKey => order.clear(),
            Trap::HidesDownward => order.reverse(),
            _ => {}
        }
        for (turn, &q) in order.iter().enumerate() {
            match self.trap {
                Trap::HidesFirstOnly if turn > 0 => self.blank(n, q, &mut key),
                _ => _ = self.hide(n, q, &mut key),
            }
        }
        key
    }

    /// As `judge::naive::hide`, which makes no mistakes.
    fn hide(&self, n: usize, q: usize, table: &mut [i64]) -> bool {
        let possible = self.pair(n, q, table);
        self.blank(n, q, table);
        possible
    }

    /// Puts in the sums of the rules on a quantity, which stay; false at a contradiction.
    pub fn pair(&self, n: usize, q: usize, table: &mut [i64]) -> bool {
        let mut possible = true;
        for sum in sums(q, &rules(n, table)) {
            if self.trap == Trap::ForgetsLoneRules && sum.rest.contains(&None) {
                continue;
            }
            match self.place_and_bound(&sum) {
                Some((place, bound)) => table[place] = table[place].min(bound),
                None => possible &= sum.bound >= 0,
            }
        }
        possible
    }

    fn place_and_bound(&self, sum: &Sum) -> Option<(usize, i64)> {
        match sum.rest {
            [Some(x), Some(y)] if x == y && self.trap == Trap::RoundsTowardZero => Some((place(x), sum.bound / 2)),
            _ => sum.place_and_bound(),
        }
    }

    pub fn blank(&self, n: usize, q: usize, table: &mut [i64]) {
        for (word, term) in table.iter_mut().zip(terms(n)) {
            let kept = term.second.is_none() && self.trap == Trap::KeepsLoneRules;
            if term.quantities().any(|named| named == q) && !kept {
                *word = NO_RULE;
            }
        }
    }
}
