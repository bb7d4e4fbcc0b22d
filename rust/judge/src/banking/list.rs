//! Every term as a bank sheet spells it, in place order: document 01's words ('The table') written out. No formula and no
//! quantity decides about a place, only the list. A term that is spelled otherwise, doubled or with its higher quantity
//! first, is not in it.

use crate::meaning::{is_in, MOST_QUANTITIES, NO_RULE};
use crate::sheets::Sheet;
use std::collections::HashMap;
use std::sync::LazyLock;

/// For each quantity q first +q, then -q, then for each p from 1 to q - 1 the four of +p+q, +p-q, -p+q and -p-q.
pub fn spellings(n: usize) -> Vec<String> {
    let mut all = vec![];
    for q in 1..=n {
        all.extend([format!("+{q}"), format!("-{q}")]);
        for p in 1..q {
            all.extend([format!("+{p}+{q}"), format!("+{p}-{q}"), format!("-{p}+{q}"), format!("-{p}-{q}")]);
        }
    }
    all
}

/// The list of fewer quantities is the beginning of this one.
static TERMS: LazyLock<Vec<String>> = LazyLock::new(|| spellings(MOST_QUANTITIES));

static PLACES: LazyLock<HashMap<&str, usize>> =
    LazyLock::new(|| TERMS.iter().enumerate().map(|(place, term)| (&term[..], place)).collect());

/// How many terms stand before this one in the list, if it is in it.
pub fn place(term: &str) -> Option<usize> {
    PLACES.get(term).copied()
}

/// The term with so many others before it.
pub fn term(place: usize) -> &'static str {
    &TERMS[place]
}

/// The one quantity of a term and the other with their signs, or the one and nothing.
pub fn parted(term: &str) -> (&str, &str) {
    term.split_at(term.rfind(['+', '-']).filter(|&at| at > 0).unwrap_or(term.len()))
}

/// The one text of a table: its rules as the list has them.
pub fn text(sheet: &Sheet) -> String {
    let hidden: Vec<String> = (1..=sheet.n).filter(|&q| is_in(sheet.hidden, q)).map(|q| q.to_string()).collect();
    let held = sheet.table.iter().enumerate().filter(|&(_, &word)| word != NO_RULE);
    let rules: Vec<String> = held.map(|(place, word)| format!("rule={}:{word}\n", term(place))).collect();
    format!("quantities={}\nhidden={}\nrules={}\n{}", sheet.n, hidden.join(","), rules.len(), rules.concat())
}
