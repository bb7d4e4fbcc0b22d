//! Scripts that do not fit their sheet: another n, another hidden list, a rule that names a hidden quantity. With another list
//! a script has another limit too: one that has lost a quantity may be past it, and is then not compared with the sheet.

use crate::meaning::{is_in, script_limit, Literal, LIMIT, MOST_QUANTITIES, MOST_RULES};
use crate::random::Random;
use crate::text::drafts;
use crate::text::paper::Paper;
use crate::text::written::Written;

const WAYS: [fn(&mut Paper, &mut Random); 3] = [n, hidden, rule];

/// Makes the script one that does not fit, in one way or several. What is due is not said here: where nothing is
/// hidden no rule can name a hidden quantity.
pub fn make(script: &mut Paper, random: &mut Random) {
    let certain = random.below(WAYS.len());
    for (number, way) in WAYS.iter().enumerate() {
        if number == certain || random.chance(5) {
            way(script, random);
        }
    }
}

/// One quantity more or fewer, or any number. Rules and hidden quantities past it go.
fn n(script: &mut Paper, random: &mut Random) {
    let most = MOST_QUANTITIES as i64;
    let near = (script.n as i64 + random.pick(&[1, -1])).clamp(1, most);
    let any = random.within(1, most);
    let n = random.pick(&[near, near, any]) as usize;
    script.n = n;
    script.hidden &= u32::MAX >> (MOST_QUANTITIES - n);
    script.rules.retain(|rule| rule.rule().term.quantities().all(|q| q <= n));
}

/// One quantity more or fewer in the list, often the last. Half of the time a rule has a bound that is within the limit of the
/// longer list and past that of the shorter one.
fn hidden(script: &mut Paper, random: &mut Random) {
    let before = script_limit(script.hidden);
    script.hidden ^= 1 << random.edge(script.n);
    let after = script_limit(script.hidden);
    let (low, high) = (before.min(after), before.max(after));
    if random.chance(50) && !script.rules.is_empty() {
        let at = random.edge(script.rules.len());
        let far = random.pick(&[low + 1, high, high - 1]);
        script.rules[at].bound = random.pick(&[far, -far]);
    }
}

/// A rule on a hidden quantity, alone, doubled or with another, at the beginning, at the end or between. Half of the
/// time it says next to nothing.
fn rule(script: &mut Paper, random: &mut Random) {
    let hidden: Vec<usize> = (1..=script.n).filter(|&q| is_in(script.hidden, q)).collect();
    if hidden.is_empty() || script.rules.len() == MOST_RULES {
        return;
    }
    let first = Literal { sign: random.pick(&[1, -1]), quantity: random.pick(&hidden) };
    let any = Literal { sign: random.pick(&[1, -1]), quantity: 1 + random.below(script.n) };
    let second = random.pick(&[None, Some(first), Some(any)]).filter(|s| *s == first || s.quantity != first.quantity);
    let any = drafts::bound(random);
    let bound = random.pick(&[LIMIT, script_limit(script.hidden), any, any]);
    let rule = match second {
        Some(second) if random.chance(50) => Written { first: second, second: Some(first), bound },
        _ => Written { first, second, bound },
    };
    let at = random.edge(script.rules.len() + 1);
    script.rules.insert(at, rule);
}
