//! The tightest table: every word the least bound of its term over the integers that satisfy the table.

use super::step::{sum, Rows};
use crate::meaning::MOST_QUANTITIES;

/// Tightens the terms of the quantities from `first` on. Those before it are eliminated, each among later ones, and leave words
/// that say nothing. Then the rules of every other quantity are paired in turn and nothing is emptied, and each sum of two
/// literals is bounded by the sum of their own bounds; false at the first contradiction.
///
/// A pairing at most doubles the largest magnitude, and so does the end: from a sheet's limits all sums fit. So they do from a
/// script's, whose hidden quantities doubled the limit and pair nothing.
pub fn tighten(n: usize, table: &mut [i64], first: usize) -> bool {
    let mut rows = Rows::EMPTY;
    for k in 0..n {
        let from = first.min(k + 1);
        rows.gather(n, table, k, from);
        if rows.contradict(n, from) {
            return false;
        }
        rows.add(n, table, from);
    }
    strengthen(n, table, first);
    true
}

fn strengthen(n: usize, table: &mut [i64], first: usize) {
    let mut alone = [0; 2 * MOST_QUANTITIES];
    for r in first..n {
        alone[2 * r..2 * r + 2].copy_from_slice(&table[2 * r * r..][..2]);
    }
    for r in first..n {
        let pairs = &mut table[2 * r * r + 2..2 * (r + 1) * (r + 1)];
        for (x, pair) in pairs.chunks_exact_mut(2).enumerate().skip(2 * first) {
            pair[0] = pair[0].min(sum(alone[x], alone[2 * r]));
            pair[1] = pair[1].min(sum(alone[x], alone[2 * r + 1]));
        }
    }
}
