//! The refusals of a hiding step in their order, and the mistakes in them.

use super::{Trap, Wrong};
use judge::graph::Closure;
use judge::library::{too_short, Reply, Step, DONE, NO_ASSIGNMENT, PAST_LIMIT, SIZE};
use judge::meaning::{rules, size, LIMIT, MOST_QUANTITIES, NO_RULE};

impl Wrong {
    /// The reply, if it is given before a sum is put in; 5 is seen later.
    pub fn early(&self, n: usize, step: Step, table: &[i64], workspace: usize) -> Option<Reply> {
        if self.0 == Trap::Accepts(n) && size(n) <= table.len() {
            return Some(DONE);
        }
        if !(1..=MOST_QUANTITIES).contains(&n) {
            return Some(SIZE);
        }
        let sized = (table.len() < size(n)).then_some(SIZE);
        let needed = if self.0 == Trap::WorkspaceOfMarking { 2 * size(n) } else { size(n) };
        let short = (workspace < needed).then(|| too_short(needed));
        let past = (self.set(n, step) || self.table(n, table) || self.quantity(n, step) || self.blocks(n, step))
            .then_some(PAST_LIMIT);
        let none = Closure::of(n, &rules(n, table)).is_none().then_some(NO_ASSIGNMENT);
        let order = match self.0 {
            Trap::LimitFirst => [past, sized, short, None],
            Trap::LimitBeforeLength => [sized, past, short, None],
            Trap::AssignmentFirst => [sized, short, none, past],
            _ => [sized, short, past, None],
        };
        order.into_iter().flatten().next()
    }

    fn set(&self, n: usize, Step { before, .. }: Step) -> bool {
        self.0 != Trap::SetUnchecked && u64::from(before) >> n != 0
    }

    fn table(&self, n: usize, table: &[i64]) -> bool {
        let tested = match self.0 {
            Trap::TableUnchecked => 0,
            Trap::TableBehind => table.len(),
            _ => size(n).min(table.len()),
        };
        table[..tested].iter().any(|&word| word != NO_RULE && !(-LIMIT..=LIMIT).contains(&word))
    }

    fn quantity(&self, n: usize, Step { before, quantity, .. }: Step) -> bool {
        let least = usize::from(self.0 != Trap::QuantityZero);
        match self.0 {
            Trap::QuantityMoved(by) => !(least..=n.saturating_add_signed(by)).contains(&quantity),
            Trap::NarrowQuantity => !(1..=n as u32).contains(&(quantity as u32)),
            Trap::RefusesBefore if (1..=n).contains(&quantity) => before >> (quantity - 1) & 1 == 1,
            _ => !(least..=n).contains(&quantity),
        }
    }

    fn blocks(&self, n: usize, Step { blocks, .. }: Step) -> bool {
        match self.0 {
            Trap::BlocksMoved(by) => blocks > (n + 1).saturating_add_signed(by),
            Trap::NarrowBlocks => blocks as u32 > n as u32 + 1,
            _ => blocks > n + 1,
        }
    }
}
