//! Integers that satisfy some rules, chosen one after the other by least bounds.

use judge::graph::Closure;
use judge::meaning::{Literal, Rule, Term};

/// The integer nearest to 0 that is left for each quantity, none where no integers satisfy the rules.
pub fn satisfying(n: usize, rules: &[Rule]) -> Option<Vec<i64>> {
    let mut held = rules.to_vec();
    let mut values = Vec::with_capacity(n);
    for quantity in 1..=n {
        let closure = Closure::of(n, &held)?;
        let term = |sign| Term { first: Literal { sign, quantity }, second: None };
        let least = |sign| closure.least(&term(sign)).map_or(i64::MAX, |least| least as i64);
        let value = 0.clamp(-least(-1), least(1));
        held.extend([1, -1].map(|sign| Rule { term: term(sign), bound: sign * value }));
        values.push(value);
    }
    Closure::of(n, &held).map(|_| values)
}
