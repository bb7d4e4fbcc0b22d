//! A rule by value.

use std::fmt;

/// One or two signed quantity numbers, +q as q and -q as -q, and the bound that they are together at most. Displayed as in a
/// text, `+1-2:5`.
#[derive(Clone, Copy, PartialEq, Eq, Hash, Debug)]
pub enum Rule {
    One { term: i64, bound: i64 },
    Two { first: i64, second: i64, bound: i64 },
}

impl Rule {
    /// The rule of the three words that marking writes; none where both quantity numbers are 0.
    pub fn of(words: [i64; 3]) -> Option<Rule> {
        match words {
            [0, 0, _] => None,
            [term, 0, bound] => Some(Rule::One { term, bound }),
            [first, second, bound] => Some(Rule::Two { first, second, bound }),
        }
    }

    /// The three words by which C has the rule, 0 for no second quantity.
    pub fn words(self) -> [i64; 3] {
        match self {
            Rule::One { term, bound } => [term, 0, bound],
            Rule::Two { first, second, bound } => [first, second, bound],
        }
    }
}

impl fmt::Display for Rule {
    fn fmt(&self, f: &mut fmt::Formatter) -> fmt::Result {
        match self {
            Rule::One { term, bound } => write!(f, "{term:+}:{bound}"),
            Rule::Two { first, second, bound } => write!(f, "{first:+}{second:+}:{bound}"),
        }
    }
}
