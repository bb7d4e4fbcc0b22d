//! Random lists of questions to a sheet: terms of every form, and bounds at which an answer turns.

use super::given::{place, Words};
use crate::graph::Closure;
use crate::meaning::{rules, Literal, Rule, Term, LIMIT, MOST_QUESTIONS, NO_RULE};
use crate::random::Random;
use crate::sheets::Sheet;

/// A list that is neither empty nor too long, of questions within the limits.
pub fn drawn(sheet: &Sheet, random: &mut Random) -> Vec<Words> {
    let any = 1 + random.below(MOST_QUESTIONS);
    let count = random.pick(&[1, 2, 5, any, MOST_QUESTIONS - 1, MOST_QUESTIONS, MOST_QUESTIONS]);
    let closure = Closure::of(sheet.n, &rules(sheet.n, &sheet.table));
    (0..count).map(|_| question(sheet, closure.as_ref(), random)).collect()
}

fn question(sheet: &Sheet, closure: Option<&Closure>, random: &mut Random) -> Words {
    let term = term(sheet.n, random);
    let mut bounds = vec![random.within(-9, 9), random.pick(&[LIMIT, LIMIT - 1, 1 - LIMIT, -LIMIT])];
    // the least bound, one that is just too small, and the sheet's own, which may be larger
    if let Some(least) = closure.and_then(|closure| closure.least(&term)) {
        let least = least.clamp(-i128::from(LIMIT), i128::from(LIMIT)) as i64;
        bounds.extend([least, least, least - 1, least - 1, least + 1, least - random.within(2, 3)]);
    }
    let (place, times) = place(&term);
    if sheet.table[place] != NO_RULE {
        let own = times * sheet.table[place];
        bounds.extend([own, own, own - 1, own + 1]);
    }
    spelled(&Rule { term, bound: random.pick(&bounds).clamp(-LIMIT, LIMIT) })
}

/// One literal, one twice, or two in either order.
fn term(n: usize, random: &mut Random) -> Term {
    let literal = |random: &mut Random| Literal { sign: random.pick(&[1, -1]), quantity: 1 + random.edge(n) };
    let first = literal(random);
    let second = match random.below(5) {
        0 => None,
        1 => Some(first),
        // the same quantity with the other sign would cancel
        _ => Some(literal(random)).filter(|second| second.quantity != first.quantity),
    };
    Term { first, second }
}

/// The question of a rule.
pub fn spelled(rule: &Rule) -> Words {
    let signed = |literal: Literal| literal.sign * literal.quantity as i64;
    [signed(rule.term.first), rule.term.second.map_or(0, signed), rule.bound]
}
