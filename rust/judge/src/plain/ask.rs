//! A question as three words: whether it is one, and its answer from one word of the tightest table.

use crate::library::{Reply, CANCELLING, PAST_LIMIT};
use crate::meaning::LIMIT;

/// The whole questions of a list.
pub fn each(list: &[i64]) -> impl Iterator<Item = [i64; 3]> + '_ {
    list.chunks_exact(3).map(|words| [words[0], words[1], words[2]])
}

/// The first refusal of a list, of all its questions: one outside the limits counts before one that cancels, wherever they
/// stand.
pub fn refused(n: usize, list: &[i64]) -> Option<Reply> {
    let mut cancels = false;
    for [first, second, bound] in each(list) {
        if !named(n, first) || !(second == 0 || named(n, second)) || !(-LIMIT..=LIMIT).contains(&bound) {
            return Some(PAST_LIMIT);
        }
        cancels |= first == -second;
    }
    cancels.then_some(CANCELLING)
}

/// Is this a quantity with its sign?
fn named(n: usize, signed: i64) -> bool {
    (1..=n as u64).contains(&signed.unsigned_abs())
}

/// Do all integers meet this question that satisfy the sheet of a tightest table? The least bound of its term decides, a doubled
/// term taken once and its bound halved; where there is none, that word is above every bound.
pub fn answer(tight: &[i64], [first, second, bound]: [i64; 3]) -> bool {
    let x = literal(first);
    match second {
        0 => tight[alone(x)] <= bound,
        // a shift to the right rounds toward minus infinity
        _ if second == first => tight[alone(x)] <= bound >> 1,
        _ => {
            let y = literal(second);
            let (low, high) = (x.min(y), x.max(y));
            tight[2 * (high / 2) * (high / 2) + 2 + 2 * low + high % 2] <= bound
        }
    }
}

fn literal(signed: i64) -> usize {
    2 * (signed.unsigned_abs() as usize - 1) + usize::from(signed < 0)
}

fn alone(x: usize) -> usize {
    2 * (x / 2) * (x / 2) + x % 2
}
