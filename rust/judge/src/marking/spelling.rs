//! A table spelled as a text may write it: rules in any order, terms in both orders or doubled, places named again.

use crate::meaning::{rules, Rule, MOST_RULES};
use crate::random::Random;
use crate::sheets::Sheet;
use crate::text::paper::Paper;
use crate::text::written::Written;

/// A paper whose rules are read into this table. Its bounds are at most `limit` in magnitude, as those of the table are.
pub fn paper(sheet: &Sheet, limit: i64, random: &mut Random) -> Paper {
    let held = rules(sheet.n, &sheet.table);
    let mut written: Vec<Written> = held.iter().map(|rule| spelled(rule, limit, random)).collect();
    if random.chance(20) {
        let weaker = held.iter().map(|rule| spelled(&weakened(rule, limit, random), limit, random));
        written.extend(weaker.take(MOST_RULES - held.len()).collect::<Vec<_>>());
    }
    if random.chance(50) {
        random.shuffle(&mut written);
    }
    Paper { n: sheet.n, hidden: sheet.hidden, rules: written }
}

/// The same term with a bound that is no smaller, which the rule itself makes idle.
fn weakened(rule: &Rule, limit: i64, random: &mut Random) -> Rule {
    let bound = (rule.bound + random.pick(&[0, 1, 1000, limit])).min(limit);
    Rule { term: rule.term, bound }
}

/// The rule with its terms in either order; one of a lone term at times doubled, with a bound that is halved to its own.
fn spelled(rule: &Rule, limit: i64, random: &mut Random) -> Written {
    let (first, bound) = (rule.term.first, rule.bound);
    let twice = 2 * bound + random.pick(&[0, 1]);
    match rule.term.second {
        Some(second) if random.chance(50) => Written { first: second, second: Some(first), bound },
        None if random.chance(40) && twice.abs() <= limit => Written { first, second: Some(first), bound: twice },
        second => Written { first, second, bound },
    }
}
