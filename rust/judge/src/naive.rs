//! Hiding by document 01's own words: every rule with +q of a list is added to every rule with -q. It is slow, and it
//! shares no step with `plain`: no rows are gathered, and 'no assignment' is decided by hiding all quantities as they are
//! hidden for a key.

use crate::meaning::{is_in, rules, terms, Literal, Rule, NO_RULE};

/// The key's words, or none where hiding all quantities comes to a contradiction.
pub fn key(n: usize, hidden: u32, table: &[i64]) -> Option<Vec<i64>> {
    let mut emptied = table.to_vec();
    if !(1..=n).all(|q| hide(n, q, &mut emptied)) {
        return None;
    }
    let mut key = table.to_vec();
    // no contradiction can come: these sums follow from rules that have an assignment
    (1..=n).filter(|&q| is_in(hidden, q)).for_each(|q| _ = hide(n, q, &mut key));
    Some(key)
}

/// Hides quantity q; false at a contradiction.
pub fn hide(n: usize, q: usize, table: &mut [i64]) -> bool {
    let mut possible = true;
    for sum in sums(q, &rules(n, table)) {
        match sum.place_and_bound() {
            Some((place, bound)) => table[place] = table[place].min(bound),
            None => possible &= sum.bound >= 0,
        }
    }
    for (word, term) in table.iter_mut().zip(terms(n)) {
        if term.quantities().any(|named| named == q) {
            *word = NO_RULE;
        }
    }
    possible
}

/// The table in the middle of the step that hides q: the sums whose place lies in one of the first `blocks` blocks are in, and with
/// n + 1 the places that name q have become no rule too.
pub fn begun(n: usize, q: usize, blocks: usize, table: &[i64]) -> Vec<i64> {
    let mut begun = table.to_vec();
    if blocks > n {
        // a contradiction is looked for elsewhere
        _ = hide(n, q, &mut begun);
        return begun;
    }
    for sum in sums(q, &rules(n, table)) {
        if let Some((place, bound)) = sum.place_and_bound().filter(|_| sum.block() <= blocks) {
            begun[place] = begun[place].min(bound);
        }
    }
    begun
}

/// A rule with +q and a rule with -q, added.
pub struct Sum {
    /// what is left of the two terms
    pub rest: [Option<Literal>; 2],
    pub bound: i64,
}

/// The sums of all rules with +q and all rules with -q.
pub fn sums(q: usize, rules: &[Rule]) -> Vec<Sum> {
    let with = |sign| rules.iter().filter_map(move |rule| without(rule, Literal { sign, quantity: q }));
    let (added, subtracted): (Vec<_>, Vec<_>) = (with(1).collect(), with(-1).collect());
    let mut all = Vec::with_capacity(added.len() * subtracted.len());
    for (x, c) in added {
        all.extend(subtracted.iter().map(|&(y, d)| Sum { rest: [x, y], bound: c + d }));
    }
    all
}

/// What is left of a rule when this literal is taken away, with its bound; none where the rule does not have it.
fn without(rule: &Rule, literal: Literal) -> Option<(Option<Literal>, i64)> {
    let term = rule.term;
    if term.first == literal {
        return Some((term.second, rule.bound));
    }
    (term.second == Some(literal)).then_some((Some(term.first), rule.bound))
}

impl Sum {
    /// The block that it goes into, which is that of its higher quantity; 0 where nothing remains of its terms.
    pub fn block(&self) -> usize {
        self.rest.iter().flatten().map(|left| left.quantity).max().unwrap_or(0)
    }

    /// Where the sum goes in and with which bound; none where it is bare.
    pub fn place_and_bound(&self) -> Option<(usize, i64)> {
        match self.rest {
            [Some(x), Some(y)] if x == y => Some((place(x), self.bound.div_euclid(2))),
            [Some(x), Some(y)] if x.quantity == y.quantity => None,
            [Some(x), Some(y)] => Some((place_of_two(x, y), self.bound)),
            [Some(x), None] | [None, Some(x)] => Some((place(x), self.bound)),
            [None, None] => None,
        }
    }
}

/// Document 01, 'The table': the block of q, first +q, then -q.
pub fn place(x: Literal) -> usize {
    2 * (x.quantity - 1) * (x.quantity - 1) + usize::from(x.sign < 0)
}

/// In the block of the higher quantity four words for each lower one: ++, +-, -+, --.
pub fn place_of_two(x: Literal, y: Literal) -> usize {
    let (low, high) = if x.quantity < y.quantity { (x, y) } else { (y, x) };
    let block = 2 * (high.quantity - 1) * (high.quantity - 1) + 2 + 4 * (low.quantity - 1);
    block + 2 * usize::from(low.sign < 0) + usize::from(high.sign < 0)
}
