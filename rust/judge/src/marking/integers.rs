//! Whether the integers that come with a verdict show it (document 01, 'Marking').

use super::verdict::Rules;
use crate::brute;
use crate::due::FARTHEST;
use crate::graph::Closure;
use crate::meaning::{broken, is_in, Literal, Rule, Term};

/// Enumeration is quick enough for so many hidden integers.
const MOST_TRIES: u128 = 100_000;

/// Are these n integers, and none too far from 0?
pub fn in_range(n: usize, values: &[i64]) -> Result<(), String> {
    if values.len() != n {
        return Err(format!("{} integers, due {n}", values.len()));
    }
    match values.iter().find(|v| !(-FARTHEST..=FARTHEST).contains(*v)) {
        Some(value) => Err(format!("{value} is out of range")),
        None => Ok(()),
    }
}

/// Does the script allow these integers, which no hidden ones complete, the hidden ones being 0?
pub fn loose(rules: &Rules, values: &[i64]) -> Result<(), String> {
    let shown = (1..=rules.n).filter(|&q| is_in(rules.hidden, q)).find(|&q| values[q - 1] != 0);
    if let Some(q) = shown {
        return Err(format!("the hidden quantity {q} is {}, due 0", values[q - 1]));
    }
    if let Some(rule) = broken(&rules.script, values) {
        return Err(format!("the integers break the script's rule {rule}"));
    }
    match completed(rules, values)? {
        true => Err("hidden integers complete these".into()),
        false => Ok(()),
    }
}

/// Do these integers satisfy the sheet, and does the script forbid them?
pub fn tight(rules: &Rules, values: &[i64]) -> Result<(), String> {
    if let Some(rule) = broken(&rules.sheet, values) {
        return Err(format!("the integers break the sheet's rule {rule}"));
    }
    match broken(&rules.script, values) {
        Some(_) => Ok(()),
        None => Err("the script allows these integers".into()),
    }
}

/// Do hidden integers complete the visible ones? The visible ones are put in as rules of the sheet. Where it is quick
/// enough all hidden integers are tried too.
fn completed(rules: &Rules, values: &[i64]) -> Result<bool, String> {
    let Rules { n, hidden, sheet, .. } = rules;
    let visible = (1..=*n).filter(|&q| !is_in(*hidden, q));
    let fixed: Vec<Rule> = visible.flat_map(|q| equal(q, values[q - 1])).collect();
    let found = Closure::of(*n, &[&sheet[..], &fixed].concat()).is_some();
    if tried(rules, values) && brute::completed(*n, *hidden, sheet, values) != found {
        return Err("the judges differ: enumeration and shortest paths on hidden integers".into());
    }
    Ok(found)
}

/// Is enumeration of the hidden integers quick enough?
pub fn tried(rules: &Rules, values: &[i64]) -> bool {
    brute::completion_tries(rules.n, rules.hidden, &rules.sheet, values) <= MOST_TRIES
}

/// Two rules that together say that a quantity is this integer.
fn equal(quantity: usize, value: i64) -> [Rule; 2] {
    [1, -1].map(|sign| Rule { term: Term { first: Literal { sign, quantity }, second: None }, bound: sign * value })
}
