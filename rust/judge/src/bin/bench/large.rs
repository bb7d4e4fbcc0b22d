//! Tight scripts with bounds as large as a script's may be, beside the same scripts with small ones: what large numbers cost.

use crate::marks;
use crate::times::{Batches, Times, ROUNDS};
use judge::library::TIGHT;
use judge::meaning::{script_limit, terms, Term, NO_RULE};
use judge::sheets::Sheet;

/// How many calls a batch has.
const CALLS: usize = 16;

/// The bounds of a script that are not large.
const SMALL: i64 = 1000;

/// Every second quantity.
const HIDDEN: u32 = 0xAAAA_AAAA;

/// Times both for few and for many quantities, and prints a row of each pair.
pub fn print() {
    println!("\n| Verdict tight, bounds of | −1,000 | the script's limit, below 0 | library, to the first |\n|---|---|---|---|");
    [4, 8, 16, 32].into_iter().for_each(row);
}

fn row(n: usize) {
    let hidden = HIDDEN & (u32::MAX >> (32 - n));
    let sheet = bounded(n, hidden, 0, |_| true);
    let [small, large] = [SMALL, script_limit(hidden)].map(|bound| {
        let script = bounded(n, hidden, -bound, |term| !term.names(hidden));
        times(|| marks::mark(&[(&sheet[..], &script[..]); CALLS], TIGHT))
    });
    println!("| n = {n} | {small} | {large} | {:.2} |", large.library / small.library);
}

/// The text of a paper that bounds all sums without a minus sign that are chosen, so that integers far below 0 satisfy it.
fn bounded(n: usize, hidden: u32, bound: i64, chosen: impl Fn(&Term) -> bool) -> Vec<u8> {
    let sum = |term: &Term| term.first.sign > 0 && term.second.is_none_or(|literal| literal.sign > 0);
    let word = |term: &Term| if sum(term) && chosen(term) { bound } else { NO_RULE };
    Sheet { n, hidden, table: terms(n).iter().map(word).collect() }.to_string().into_bytes()
}

/// The medians over all rounds.
fn times(batches: impl Fn() -> Batches) -> Times {
    Batches::medians(&[(); ROUNDS].map(|_| batches()))
}
