//! What a table says: its rules, and whether integers satisfy them. The numbering of terms is document 01's list written
//! out, not the formula of `plain`, so that a slip in one shows against the other.

use std::fmt;

/// The limits of a sheet (document 01, 'Sheet limits' and 'The table').
pub const MOST_QUANTITIES: usize = 32;
pub const LIMIT: i64 = 1_000_000_000;
pub const MOST_RULES: usize = 2_048;
pub const MOST_BYTES: usize = 65_536;
pub const NO_RULE: i64 = i64::MAX;

/// The most questions of a list (document 02, request 3).
pub const MOST_QUESTIONS: usize = 64;

/// The largest magnitude of a bound in a script with this hidden set: a sheet's, doubled for each quantity of the set. Where
/// all 32 are hidden twice as much still fits a word.
pub fn script_limit(hidden: u32) -> i64 {
    LIMIT << hidden.count_ones()
}

/// A quantity, numbered from 1, with a sign of 1 or -1.
#[derive(Clone, Copy, PartialEq, Eq, Debug)]
pub struct Literal {
    pub sign: i64,
    pub quantity: usize,
}

/// One literal, or two. A table's terms have two of different quantities; a text may also write one twice.
#[derive(Clone, Copy, PartialEq, Eq, Debug)]
pub struct Term {
    pub first: Literal,
    pub second: Option<Literal>,
}

/// The term is at most the bound.
#[derive(Clone, Copy, PartialEq, Eq, Debug)]
pub struct Rule {
    pub term: Term,
    pub bound: i64,
}

impl Literal {
    fn value(&self, values: &[i64]) -> i128 {
        self.sign as i128 * values[self.quantity - 1] as i128
    }
}

impl Term {
    /// The term's integer. A sum of two 64-bit words needs more than 64 bits.
    pub fn value(&self, values: &[i64]) -> i128 {
        self.first.value(values) + self.second.map_or(0, |second| second.value(values))
    }

    /// The quantities that the term names.
    pub fn quantities(&self) -> impl Iterator<Item = usize> {
        let second = self.second.map(|second| second.quantity);
        std::iter::once(self.first.quantity).chain(second)
    }

    /// Does the term name a quantity of this set?
    pub fn names(&self, set: u32) -> bool {
        self.quantities().any(|q| is_in(set, q))
    }
}

impl Rule {
    pub fn met(&self, values: &[i64]) -> bool {
        self.term.value(values) <= self.bound as i128
    }

    /// The rule that holds exactly where this one does not.
    pub fn opposite(&self) -> Rule {
        let turned = |x: Literal| Literal { sign: -x.sign, quantity: x.quantity };
        Rule {
            term: Term { first: turned(self.term.first), second: self.term.second.map(turned) },
            bound: -self.bound - 1,
        }
    }
}

/// Is quantity q in this set? Bit q - 1 stands for it.
pub fn is_in(set: u32, q: usize) -> bool {
    (set >> (q - 1)) & 1 == 1
}

/// The words of a table of n quantities.
pub const fn size(n: usize) -> usize {
    2 * n * n
}

/// All terms over n quantities in place order.
pub fn terms(n: usize) -> Vec<Term> {
    let signed = |quantity| [1, -1].map(|sign| Literal { sign, quantity });
    let mut all = Vec::with_capacity(size(n));
    for q in 1..=n {
        for first in signed(q) {
            let second = None;
            all.push(Term { first, second });
        }
        for p in 1..q {
            for first in signed(p) {
                for last in signed(q) {
                    let second = Some(last);
                    all.push(Term { first, second });
                }
            }
        }
    }
    all
}

/// The rules that a table's first 2n² words hold, in place order.
pub fn rules(n: usize, table: &[i64]) -> Vec<Rule> {
    let held = terms(n).into_iter().zip(table);
    held.filter(|&(_, &bound)| bound != NO_RULE).map(|(term, &bound)| Rule { term, bound }).collect()
}

/// The first rule that these integers break.
pub fn broken<'a>(rules: &'a [Rule], values: &[i64]) -> Option<&'a Rule> {
    rules.iter().find(|rule| !rule.met(values))
}

/// The largest magnitude of a bound, 0 where there is none. That of a doubled term counts halved, for to integers it
/// says the same of the term once.
pub fn largest_bound(rules: &[Rule]) -> u64 {
    let once = |rule: &Rule| match rule.term.second == Some(rule.term.first) {
        true => rule.bound.div_euclid(2),
        false => rule.bound,
    };
    rules.iter().map(|rule| once(rule).unsigned_abs()).max().unwrap_or(0)
}

impl fmt::Display for Literal {
    fn fmt(&self, f: &mut fmt::Formatter) -> fmt::Result {
        let sign = if self.sign < 0 { '-' } else { '+' };
        write!(f, "{sign}{}", self.quantity)
    }
}

impl fmt::Display for Term {
    fn fmt(&self, f: &mut fmt::Formatter) -> fmt::Result {
        write!(f, "{}", self.first)?;
        self.second.map_or(Ok(()), |second| write!(f, "{second}"))
    }
}

impl fmt::Display for Rule {
    fn fmt(&self, f: &mut fmt::Formatter) -> fmt::Result {
        write!(f, "{}:{}", self.term, self.bound)
    }
}
