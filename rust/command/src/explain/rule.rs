//! A rule in words.

use crate::reason::form::{RuleLine, Term};
use crate::reason::hidden::Hidden;

/// Whether it names a hidden quantity.
pub fn names(rule: &RuleLine, hidden: Hidden) -> bool {
    let mut terms = std::iter::once(&rule.first).chain(&rule.second);
    terms.any(|term| term.quantity.value().is_some_and(|quantity| hidden.has(quantity)))
}

/// The rule as it is written, and what it comes to where that is simpler: a doubled term halved, "at least" for minus signs.
pub fn in_words(rule: &RuleLine) -> String {
    let sign = if rule.minus { "-" } else { "" };
    let first = format!("{}{}", if rule.first.minus { "-" } else { "" }, named(&rule.first));
    let second = rule.second.map_or(String::new(), |term| {
        let sign = if term.minus { '-' } else { '+' };
        format!(" {sign} {}", named(&term))
    });
    let written = format!("{first}{second} <= {sign}{}", rule.bound.shown());
    match simpler(rule) {
        Some(simpler) => format!("{written}, that is {simpler}"),
        None => written,
    }
}

fn named(term: &Term) -> String {
    format!("quantity {}", term.quantity.shown())
}

/// What the rule comes to, none where nothing is simpler.
fn simpler(rule: &RuleLine) -> Option<String> {
    let magnitude = i64::try_from(rule.bound.value()?).ok()?;
    let bound = if rule.minus { -magnitude } else { magnitude };
    let first = named(&rule.first);
    let doubled = rule.second.is_some_and(|second| second.minus == rule.first.minus && named(&second) == first);
    match (rule.first.minus, rule.second) {
        (false, Some(_)) if doubled => Some(format!("{first} <= {}", bound.div_euclid(2))),
        (true, Some(_)) if doubled => Some(format!("{first} >= {}", -bound.div_euclid(2))),
        (true, None) => Some(format!("{first} >= {}", -bound)),
        (true, Some(second)) if second.minus => Some(format!("{first} + {} >= {}", named(&second), -bound)),
        (true, Some(second)) => Some(format!("{} - {first} <= {bound}", named(&second))),
        (false, _) => None,
    }
}
