//! Rules as a text writes them, and the table that they are read into.

use crate::meaning::{terms, Literal, Rule, Term, MOST_QUANTITIES, NO_RULE};
use std::fmt;

/// One or two signed quantities in the order written, a doubled one twice, and the bound as written.
#[derive(Clone, Copy, PartialEq, Eq, Debug)]
pub struct Written {
    pub first: Literal,
    pub second: Option<Literal>,
    pub bound: i64,
}

impl Written {
    /// The rule as it is written: a doubled term keeps its bound, and its meaning needs no halving.
    pub fn rule(&self) -> Rule {
        Rule { term: Term { first: self.first, second: self.second }, bound: self.bound }
    }

    /// The rule that a table holds for this one: a doubled term halved, else the lower quantity first.
    fn held(&self) -> Rule {
        let Written { first, second, bound } = *self;
        match second {
            Some(second) if second == first => Rule { term: Term { first, second: None }, bound: bound.div_euclid(2) },
            Some(second) if second.quantity < first.quantity => {
                Rule { term: Term { first: second, second: Some(first) }, bound }
            }
            _ => Rule { term: Term { first, second }, bound },
        }
    }
}

/// For each term in place order the smallest bound that a rule gives it. None of the rules cancels.
pub fn table(n: usize, rules: &[Written]) -> Vec<i64> {
    let mut least = [[NO_RULE; 2 * MOST_QUANTITIES + 1]; 2 * MOST_QUANTITIES + 1];
    for Rule { term, bound } in rules.iter().map(Written::held) {
        let held = &mut least[column(Some(term.first))][column(term.second)];
        *held = bound.min(*held);
    }
    terms(n).iter().map(|term| least[column(Some(term.first))][column(term.second)]).collect()
}

/// A number for each literal, and one for none.
fn column(literal: Option<Literal>) -> usize {
    literal.map_or(0, |literal| 2 * literal.quantity - usize::from(literal.sign < 0))
}

impl fmt::Display for Written {
    fn fmt(&self, f: &mut fmt::Formatter) -> fmt::Result {
        write!(f, "{}", self.first)?;
        self.second.map_or(Ok(()), |second| write!(f, "{second}"))?;
        write!(f, ":{}", self.bound)
    }
}
