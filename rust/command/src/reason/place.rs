//! Rules as a table holds them, and their places, as document 01 counts them from 0.

use acornsled::Rule;

/// The rule with its lower quantity first, and a doubled term halved, its bound rounded down.
pub fn held(rule: Rule) -> Rule {
    match rule {
        Rule::Two { first, second, bound } if first == second => Rule::One { term: first, bound: bound.div_euclid(2) },
        Rule::Two { first, second, bound } if first.unsigned_abs() > second.unsigned_abs() => {
            Rule::Two { first: second, second: first, bound }
        }
        _ => rule,
    }
}

/// The place of a rule that is held so; of whatever quantities are given, it fits.
pub fn of(rule: Rule) -> u128 {
    let below = |term: i64| u128::from(term.unsigned_abs()).saturating_sub(1);
    let block = |term: i64| 2 * below(term).pow(2) + u128::from(term < 0);
    match rule {
        Rule::One { term, .. } => block(term),
        // behind the two places of the higher quantity alone, four for each lower one
        Rule::Two { first, second, .. } => block(second) + 2 + 4 * below(first) + 2 * u128::from(first < 0),
    }
}
