//! A table with its quantities in another order, the hidden ones first: each is then eliminated among later ones alone, and
//! the visible ones stand together at the end.

use crate::meaning::{MOST_QUANTITIES, NO_RULE};

pub struct Order {
    n: usize,
    /// how many come first
    pub hidden: usize,
    /// the quantities, from 0, in their new order; the hidden ones are increasing among themselves, and so are the visible ones
    quantities: [usize; MOST_QUANTITIES],
}

impl Order {
    pub fn hidden_first(n: usize, set: u32) -> Order {
        let is_hidden = |&k: &usize| (set >> k) & 1 == 1;
        let (first, then) = ((0..n).filter(is_hidden), (0..n).filter(|k| !is_hidden(k)));
        let mut quantities = [0; MOST_QUANTITIES];
        quantities.iter_mut().zip(first.chain(then)).for_each(|(to, k)| *to = k);
        Order { n, hidden: set.count_ones() as usize, quantities }
    }

    /// Writes the table to `arranged` in the new order.
    pub fn arrange(&self, table: &[i64], arranged: &mut [i64]) {
        for r in 0..self.n {
            let old = self.quantities[r];
            let (alone, pairs) = arranged[2 * r * r..2 * (r + 1) * (r + 1)].split_at_mut(2);
            alone.copy_from_slice(&table[2 * old * old..][..2]);
            for (four, &other) in pairs.chunks_exact_mut(4).zip(&self.quantities) {
                if other < old {
                    four.copy_from_slice(&table[2 * old * old + 2 + 4 * other..][..4]);
                } else {
                    // the two change places, and so do the terms in which their signs differ
                    let from = &table[2 * other * other + 2 + 4 * old..][..4];
                    four.copy_from_slice(&[from[0], from[2], from[1], from[3]]);
                }
            }
        }
    }

    /// Writes the visible terms of an arranged table back to their places, and no rule to all others.
    pub fn restore(&self, arranged: &[i64], table: &mut [i64]) {
        table.fill(NO_RULE);
        for r in self.hidden..self.n {
            let old = self.quantities[r];
            let (alone, pairs) = arranged[2 * r * r..2 * (r + 1) * (r + 1)].split_at(2);
            table[2 * old * old..][..2].copy_from_slice(alone);
            for (four, other) in pairs.chunks_exact(4).zip(&self.quantities).skip(self.hidden) {
                table[2 * old * old + 2 + 4 * other..][..4].copy_from_slice(four);
            }
        }
    }
}
