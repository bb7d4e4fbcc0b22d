//! Random texts that are acceptable: all n, hidden lists, terms doubled and in both orders, places named again, bounds
//! at the limits and at each length.

use super::paper::Paper;
use super::written::Written;
use crate::meaning::{Literal, LIMIT, MOST_QUANTITIES, MOST_RULES};
use crate::random::Random;
use crate::sheets::hidden_set;

pub fn any(random: &mut Random) -> Paper {
    let n = match random.below(3) {
        0 => random.pick(&[1, 2, 3, 9, 10, 11, 31]),
        1 => MOST_QUANTITIES,
        _ => random.within(1, MOST_QUANTITIES as i64) as usize,
    };
    let hidden = hidden_set(n, random);
    let count = count(random);
    // of few quantities many rules name the same place
    let named = if random.chance(40) { n.min(2) } else { n };
    let rules = (0..count).map(|_| rule(n, named, random)).collect();
    Paper { n, hidden, rules }
}

/// Mostly few rules, for these are quickly read; at times as many as there may be.
fn count(random: &mut Random) -> usize {
    match random.below(200) {
        0 => MOST_RULES,
        1 => MOST_RULES - 1,
        2 => random.below(MOST_RULES),
        _ => random.pick(&[0, 1, 1, 2, 3, 4, 5, 9, 10, 11, 30, 100]),
    }
}

/// A rule on the last `named` of n quantities.
pub fn rule(n: usize, named: usize, random: &mut Random) -> Written {
    let literal = |random: &mut Random| Literal { sign: random.pick(&[1, -1]), quantity: n - random.below(named) };
    let first = literal(random);
    let second = match random.below(5) {
        0 | 1 => None,
        2 => Some(first),
        // the same quantity with the other sign would cancel
        _ => Some(literal(random)).filter(|second| second.quantity != first.quantity),
    };
    Written { first, second, bound: bound(random) }
}

/// A bound within the limits.
pub fn bound(random: &mut Random) -> i64 {
    let power = 10_i64.pow(random.below(10) as u32);
    match random.below(6) {
        0 => random.pick(&[LIMIT, LIMIT - 1, -LIMIT, 1 - LIMIT]),
        1 => random.within(-LIMIT, LIMIT),
        2 => random.pick(&[power, power - 1, -power, 1 - power]),
        // halved, each of these shows how is rounded
        _ => random.within(-9, 9),
    }
}
