//! The refusals in document 01's order, and the mistakes in them.

use super::{Trap, Wrong};
use judge::library::{too_short, Reply, DONE, PAST_LIMIT, SIZE};
use judge::meaning::{is_in, size, LIMIT, MOST_QUANTITIES, NO_RULE};

impl Wrong {
    /// The reply, if it is given before any pair is added.
    pub fn early(&self, n: usize, hidden: u32, table: &[i64], workspace: usize, values: usize) -> Option<Reply> {
        if self.trap == Trap::Accepts(n) && n.wrapping_mul(n).wrapping_mul(2) <= table.len() {
            return Some(DONE);
        }
        if n == 0 || n > MOST_QUANTITIES || table.len() < size(n) {
            return Some(SIZE);
        }
        let past = self.past_limit(n, hidden, table);
        if past && self.trap == Trap::LimitFirst {
            return Some(PAST_LIMIT);
        }
        self.short(n, table.len(), workspace, values).or(past.then_some(PAST_LIMIT))
    }

    fn past_limit(&self, n: usize, hidden: u32, table: &[i64]) -> bool {
        let tested = match self.trap {
            Trap::LimitSkipsLast => size(n) - 1,
            _ => size(n),
        };
        let past_n = (n + 1..=MOST_QUANTITIES).any(|q| is_in(hidden, q)) && self.trap != Trap::HiddenUntested;
        past_n || table[..tested].iter().any(|&word| word != NO_RULE && self.out(word))
    }

    fn out(&self, bound: i64) -> bool {
        match self.trap {
            Trap::Limits { least, most } => bound < least || bound > most,
            Trap::LeastWordPasses => bound.wrapping_abs() > LIMIT,
            _ => !(-LIMIT..=LIMIT).contains(&bound),
        }
    }

    /// 6 with the length of the first that is too short, workspace before assignment.
    fn short(&self, n: usize, table: usize, workspace: usize, values: usize) -> Option<Reply> {
        let of_workspace = match self.trap {
            Trap::TableLengthAsNeeded => table,
            _ => size(n),
        };
        let mut order = [(workspace < size(n), of_workspace), (values < n, n)];
        if self.trap == Trap::AssignmentBeforeWorkspace {
            order.reverse();
        }
        order.iter().find(|(short, _)| *short).map(|&(_, needed)| too_short(needed))
    }
}
