//! Whether fractions satisfy rules: by shortest paths among the signed quantities, as octagon domains decide it.
//!
//! A rule a + b <= c of two signed quantities says that a exceeds -b by at most c, and that b exceeds -a by at most c.
//! Fractions satisfy all rules exactly when no circle of such steps comes to less than 0.

use super::form::{RuleLine, Term};
use acornsled::limits::MOST_QUANTITIES;

/// No step is longer, and sums of two of them fit; the bounds of a script would be too large for that in 64 bits.
const FAR: i128 = i128::MAX / 4;

/// Whether fractions for the n quantities satisfy the rules, whose numbers are within their limits.
pub fn satisfy(n: usize, rules: &[RuleLine]) -> bool {
    let size = 2 * n.min(MOST_QUANTITIES);
    let mut steps = vec![vec![FAR; size]; size];
    for rule in rules {
        let Some((a, b, bound)) = ends(rule) else { continue };
        for (from, to) in [(b ^ 1, a), (a ^ 1, b)] {
            if from < size && to < size {
                steps[from][to] = steps[from][to].min(bound);
            }
        }
    }
    for by in 0..size {
        for from in 0..size {
            for to in 0..size {
                // below -FAR there is a circle below 0 for certain, and no sum gets past what fits
                let through = (steps[from][by] + steps[by][to]).max(-FAR);
                steps[from][to] = steps[from][to].min(through);
            }
        }
    }
    (0..size).all(|at| steps[at][at] >= 0)
}

/// Both signed quantities by number, a sign turned by the lowest bit, and the bound. One quantity alone counts twice.
fn ends(rule: &RuleLine) -> Option<(usize, usize, i128)> {
    let place = |term: &Term| Some(2 * (term.quantity.value()?.checked_sub(1)?) + usize::from(term.minus));
    let bound = i128::try_from(rule.bound.value()?).ok()?;
    let bound = if rule.minus { -bound } else { bound };
    let first = place(&rule.first)?;
    match &rule.second {
        Some(second) => Some((first, place(second)?, bound)),
        None => Some((first, first, 2 * bound)),
    }
}
