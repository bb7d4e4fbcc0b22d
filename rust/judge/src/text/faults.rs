//! Lines with faults, often several: which of 2, 3 and 4 is due then shows the order. Nothing here says what is due.

use super::drafts;
use crate::meaning::{Literal, LIMIT, MOST_QUANTITIES, MOST_RULES};
use crate::random::Random;

/// `quantities=` with a number near n, past its limit, or none.
pub fn quantities(n: usize, random: &mut Random) -> String {
    format!("{}{}", key("quantities=", random), numeral(n, MOST_QUANTITIES, random))
}

/// `rules=` with a number near the right one, past its limit, or none.
pub fn rules(count: usize, random: &mut Random) -> String {
    let near = random.pick(&[count, count + 1, count.saturating_sub(1)]);
    format!("{}{}", key("rules=", random), numeral(near, MOST_RULES, random))
}

/// `hidden=` with a list in which numbers are past n, one or two of 30 digits or past a word, out of order, alike,
/// misspelled or badly joined.
pub fn hidden(n: usize, mut list: Vec<u128>, random: &mut Random) -> String {
    let long = 10_u128.pow(29) * random.within(1, 9) as u128;
    // those past a word come to small numbers where only the last 32 or 64 bits are kept, and to one where they are
    // capped
    let pasts = [0, n as u128 + 1, n as u128 + 2, (1 << 32) + 1, (1 << 64) - 1, 1 << 64, (1 << 64) + 1, long, long + 1];
    if random.chance(20) {
        list.clear();
    }
    for _ in 0..random.pick(&[0, 1, 1, 2, 2]) {
        list.push(random.pick(&pasts));
    }
    if random.chance(70) {
        list.sort();
        list.dedup();
    }
    if !list.is_empty() && random.chance(20) {
        list.push(random.pick(&list));
    }
    if list.len() > 1 && random.chance(20) {
        let (a, b) = (random.below(list.len()), random.below(list.len()));
        list.swap(a, b);
    }
    let mut spelled: Vec<String> = list.iter().map(u128::to_string).collect();
    if !spelled.is_empty() && random.chance(20) {
        let at = random.below(spelled.len());
        spelled[at] = misspelled(&spelled[at], random);
    }
    let joint = if random.chance(93) { "," } else { random.pick(&[", ", ";", ",,", "", " "]) };
    let behind = if random.chance(95) { "" } else { "," };
    format!("{}{}{behind}", key("hidden=", random), spelled.join(joint))
}

/// `rule=` with any of its parts right, past its limit or misspelled, and often with a quantity that cancels itself.
pub fn rule(n: usize, random: &mut Random) -> String {
    let right = drafts::rule(n, n, random);
    let second = right.second.unwrap_or(right.first);
    let first = numeral(right.first.quantity, n, random);
    let (sign, other) = (sign(right.first, random), if right.first.sign < 0 { '+' } else { '-' });
    let further = match random.below(8) {
        0 | 1 => String::new(),
        2..=4 => format!("{other}{first}"),
        5 => format!("{sign}{first}"),
        _ => format!("{}{}", self::sign(second, random), numeral(second.quantity, n, random)),
    };
    let third = if random.chance(97) { "" } else { "+1" };
    let colon = if random.chance(97) { ":" } else { random.pick(&["", "::", ": ", "=", ";"]) };
    format!("{}{sign}{first}{further}{third}{colon}{}", key("rule=", random), bound(right.bound, random))
}

/// A sign, now and then none or a wrong one.
fn sign(literal: Literal, random: &mut Random) -> &'static str {
    match random.below(40) {
        0 => random.pick(&["", "++", "+-", "*", " "]),
        _ if literal.sign < 0 => "-",
        _ => "+",
    }
}

fn bound(right: i64, random: &mut Random) -> String {
    let (next, double) = (i128::from(LIMIT) + 1, 2 * i128::from(LIMIT));
    let past = [next, next, double, 10_i128.pow(29), 1 << 31, 1 << 32, 1 << 63, (1 << 64) + 5, (1 << 64) - 5];
    match random.below(10) {
        0..=4 => right.to_string(),
        5..=7 => (random.pick(&past) * random.pick(&[1, -1])).to_string(),
        8 => misspelled(&right.to_string(), random),
        _ => random.pick(&["-0", "+0", "+5", "00", "05", "-05", "", "-", "--5", "5-", "+-5", "-+5"]).into(),
    }
}

/// The number, or one past `most`, or none.
fn numeral(right: usize, most: usize, random: &mut Random) -> String {
    let (right, most) = (right as u128, most as u128);
    let past = [most + 1, 0, right + (1 << 32), right + (1 << 64), 10_u128.pow(29) + right, most + 9, (1 << 64) - 1];
    match random.below(10) {
        0..=5 => right.to_string(),
        6 | 7 => random.pick(&past).to_string(),
        _ => misspelled(&right.to_string(), random),
    }
}

/// A number misspelled; what is none as a count may be one as a bound.
fn misspelled(right: &str, random: &mut Random) -> String {
    match random.below(10) {
        0..=2 => format!("0{right}"),
        3 => format!("+{right}"),
        4 => format!("-{right}"),
        5 => format!(" {right}"),
        6 => format!("{right} "),
        7 => format!("{right}\r"),
        8 => format!("{right}x"),
        _ => String::new(),
    }
}

/// The key of a line, now and then misspelled.
fn key(right: &str, random: &mut Random) -> String {
    match random.below(40) {
        0 => format!(" {right}"),
        1 => right.replace('=', " ="),
        2 => right.replace('=', ""),
        3 => right.replace('=', "=="),
        4 => right.to_uppercase(),
        5 => random.pick(&["rules=", "rule=", "hidden=", "quantities=", "=", ""]).into(),
        _ => right.into(),
    }
}
