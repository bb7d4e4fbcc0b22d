//! Integers for all quantities, from a table in which they were eliminated without a contradiction.

use super::step::Rows;
use crate::meaning::NO_RULE;

/// Chooses from the last quantity to the first. The rules on each that were there at its turn name later quantities only,
/// and their sums have left room; the integer nearest to 0 keeps all of them in range.
pub fn values(n: usize, table: &[i64], values: &mut [i64]) {
    let mut rows = Rows::EMPTY;
    for k in (0..n).rev() {
        rows.gather(n, table, k, k + 1);
        let (low, high) = room(n, &rows, k, values);
        values[k] = 0.clamp(low, high);
    }
}

/// The least and the largest integer that the rows leave for k, given the integers of the later quantities.
fn room(n: usize, rows: &Rows, k: usize, values: &[i64]) -> (i64, i64) {
    let mut low = i64::MIN;
    let mut high = rows.plus_alone;
    if rows.minus_alone != NO_RULE {
        low = -rows.minus_alone;
    }
    for y in 2 * (k + 1)..2 * n {
        let value = if y % 2 == 0 { values[y / 2] } else { -values[y / 2] };
        if rows.plus[y] != NO_RULE {
            high = high.min(rows.plus[y] - value);
        }
        if rows.minus[y] != NO_RULE {
            low = low.max(value - rows.minus[y]);
        }
    }
    (low, high)
}
