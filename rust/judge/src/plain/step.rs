//! One quantity eliminated: its rules are gathered into a row for plus and a row for minus, then the table is walked in
//! place order and each word written once. Every sum reads the rows, so the walk may change what it has passed.

use crate::meaning::{MOST_QUANTITIES, NO_RULE};

/// The bounds of the rules on one quantity, by the literal that is left when the quantity is taken away.
pub struct Rows {
    /// of the rules that add the quantity
    pub plus: [i64; 2 * MOST_QUANTITIES],
    /// of those that subtract it
    pub minus: [i64; 2 * MOST_QUANTITIES],
    /// of its lone rules
    pub plus_alone: i64,
    pub minus_alone: i64,
}

impl Rows {
    /// Rows of no quantity. They are made once for many eliminations, whose work then grows with n alone.
    pub const EMPTY: Rows = Rows {
        plus: [NO_RULE; 2 * MOST_QUANTITIES],
        minus: [NO_RULE; 2 * MOST_QUANTITIES],
        plus_alone: NO_RULE,
        minus_alone: NO_RULE,
    };

    /// Gathers the rules on k alone or with a quantity from `first` on; what is at the literals of others is left.
    pub fn gather(&mut self, n: usize, table: &[i64], k: usize, first: usize) {
        let own = &table[2 * k * k..2 * (k + 1) * (k + 1)];
        (self.plus_alone, self.minus_alone) = (own[0], own[1]);
        for (x, pair) in own[2..].chunks_exact(2).enumerate().skip(2 * first) {
            self.plus[x] = pair[0];
            self.minus[x] = pair[1];
        }
        self.plus[2 * k..2 * k + 2].fill(NO_RULE);
        self.minus[2 * k..2 * k + 2].fill(NO_RULE);
        for r in first.max(k + 1)..n {
            let four = &table[2 * r * r + 2 + 4 * k..][..4];
            self.plus[2 * r..2 * r + 2].copy_from_slice(&four[..2]);
            self.minus[2 * r..2 * r + 2].copy_from_slice(&four[2..]);
        }
    }

    /// Is a bare 0 <= c with c below 0 among the sums of what was gathered?
    pub fn contradict(&self, n: usize, first: usize) -> bool {
        let cancelled = (2 * first..2 * n).map(|x| sum(self.plus[x], self.minus[x ^ 1]));
        sum(self.plus_alone, self.minus_alone) < 0 || cancelled.min().is_some_and(|least| least < 0)
    }

    /// Puts every sum in that lands in a place of quantities from `first` on. Places that name the quantity itself keep
    /// their words, for no row has a rule at its literals.
    pub fn add(&self, n: usize, table: &mut [i64], first: usize) {
        for r in first..n {
            if !self.meets(r) {
                continue;
            }
            let (alone, pairs) = table[2 * r * r..2 * (r + 1) * (r + 1)].split_at_mut(2);
            alone[0] = alone[0].min(self.alone(2 * r));
            alone[1] = alone[1].min(self.alone(2 * r + 1));
            let (plus, minus) = (&self.plus[2 * r..][..2], &self.minus[2 * r..][..2]);
            for (x, pair) in pairs.chunks_exact_mut(2).enumerate().skip(2 * first) {
                let (plus_x, minus_x) = (self.plus[x], self.minus[x]);
                pair[0] = pair[0].min(sum(plus_x, minus[0])).min(sum(minus_x, plus[0]));
                pair[1] = pair[1].min(sum(plus_x, minus[1])).min(sum(minus_x, plus[1]));
            }
        }
    }

    /// Is there a rule on quantity r and the one that is eliminated? Where there is none, no sum lands in the block of r.
    fn meets(&self, r: usize) -> bool {
        let none = |row: &[i64]| row[2 * r] == NO_RULE && row[2 * r + 1] == NO_RULE;
        !(none(&self.plus) && none(&self.minus))
    }

    /// The smallest sum that bounds literal y alone: with a lone rule from either side, or doubled and halved.
    fn alone(&self, y: usize) -> i64 {
        let doubled = sum(self.plus[y], self.minus[y]);
        // a shift to the right rounds toward minus infinity
        let halved = if doubled == NO_RULE { NO_RULE } else { doubled >> 1 };
        halved.min(sum(self.plus[y], self.minus_alone)).min(sum(self.plus_alone, self.minus[y]))
    }
}

/// Takes all quantities away in increasing number and leaves the rules on each as they stand at its turn; false at the
/// first contradiction.
pub fn eliminate(n: usize, table: &mut [i64]) -> bool {
    let mut rows = Rows::EMPTY;
    (0..n).all(|k| {
        rows.gather(n, table, k, k + 1);
        let possible = !rows.contradict(n, k + 1);
        if possible {
            rows.add(n, table, k + 1);
        }
        possible
    })
}

/// Hides each of these quantities in turn: its sums go in, then its places are emptied.
pub fn hide(n: usize, table: &mut [i64], hidden: impl Iterator<Item = usize>) {
    let mut rows = Rows::EMPTY;
    for k in hidden {
        rows.gather(n, table, k, 0);
        rows.add(n, table, 0);
        empty(n, table, k);
    }
}

/// Hides quantity k as far as its first `blocks` blocks; n + 1 is to the end.
pub fn begin(n: usize, table: &mut [i64], k: usize, blocks: usize) {
    let mut rows = Rows::EMPTY;
    rows.gather(n, table, k, 0);
    rows.add(blocks.min(n), table, 0);
    if blocks > n {
        empty(n, table, k);
    }
}

/// Takes every rule on quantity k away.
fn empty(n: usize, table: &mut [i64], k: usize) {
    table[2 * k * k..2 * (k + 1) * (k + 1)].fill(NO_RULE);
    for r in k + 1..n {
        table[2 * r * r + 2 + 4 * k..][..4].fill(NO_RULE);
    }
}

pub fn sum(a: i64, b: i64) -> i64 {
    if a == NO_RULE || b == NO_RULE {
        NO_RULE
    } else {
        a + b
    }
}
