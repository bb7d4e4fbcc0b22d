//! Random tables for the writer, with any words, and calls of the writer that are damaged in one way or several.

use super::drafts;
use super::writer::Given;
use crate::lent::further;
use crate::meaning::{size, LIMIT, MOST_QUANTITIES, NO_RULE};
use crate::random::Random;
use crate::sheets::hidden_set;

/// A call that nothing refuses.
pub fn sound(random: &mut Random) -> Given {
    match random.below(120) {
        0 => lent(MOST_QUANTITIES, size(MOST_QUANTITIES), longest, random),
        1..=60 => any(drafts::bound, random),
        _ => any(word, random),
    }
}

/// A table with words drawn in this way.
fn any(draw: fn(&mut Random) -> i64, random: &mut Random) -> Given {
    let n = match random.below(6) {
        0 => MOST_QUANTITIES,
        1 | 2 => random.pick(&[1, 2, 9, 10]),
        _ => random.within(1, MOST_QUANTITIES as i64) as usize,
    };
    let wanted = random.pick(&[0, 1, n, n, n, 2 * n, 2 * n, 2 * n, size(n) / 4, size(n)]);
    lent(n, wanted, draw, random)
}

/// A table with about so many words drawn, and an output that is long enough.
fn lent(n: usize, wanted: usize, draw: fn(&mut Random) -> i64, random: &mut Random) -> Given {
    let held = |random: &mut Random| if random.below(size(n)) < wanted { draw(random) } else { NO_RULE };
    let mut table: Vec<i64> = (0..size(n)).map(|_| held(random)).collect();
    // a loop that begins too late or ends too early passes over one of these
    if wanted > 0 {
        table[random.pick(&[0, size(n) - 1])] = draw(random);
    }
    let behind = further(random);
    table.extend(random.words(behind));
    let mut given = Given { n, hidden: hidden_set(n, random), table, out: usize::MAX };
    let needed = given.due().expect("nothing refuses the call").len();
    given.out = needed + further(random);
    given
}

/// A word of the longest spelling: with 2,048 of them a text is over the size of those that are read.
fn longest(random: &mut Random) -> i64 {
    random.within(i64::MIN, -(10_i64.pow(18)))
}

/// A word of any length and sign, at times the least of all or one that is next to the no-rule word.
fn word(random: &mut Random) -> i64 {
    let power = 10_i64.pow(random.below(19) as u32);
    match random.below(5) {
        0 => random.pick(&[i64::MIN, i64::MIN + 1, NO_RULE - 1, NO_RULE - 2, LIMIT + 1, -LIMIT - 1]),
        1 => random.pick(&[power, power - 1, -power, 1 - power]),
        _ => (random.word() as i64) >> random.below(64),
    }
}

/// A sound call, damaged in at least one way.
pub fn damaged(mut given: Given, random: &mut Random) -> Given {
    let certain = random.below(4);
    // n comes last: the other ways go by the table's
    let ways: [fn(&mut Given, &mut Random); 4] = [output, hidden, table, n];
    for (number, way) in ways.iter().enumerate() {
        if number == certain || random.chance(20) {
            way(&mut given, random);
        }
    }
    given
}

/// Too short an output, half of the time by one byte.
fn output(given: &mut Given, random: &mut Random) {
    let needed = given.due().map_or(0, |text| text.len());
    given.out = random.pick(&[0, 1, needed.saturating_sub(1), needed.saturating_sub(1), needed / 2]);
}

/// A hidden quantity past n; there is none at 32.
fn hidden(given: &mut Given, random: &mut Random) {
    let past = MOST_QUANTITIES - given.n;
    if past > 0 {
        given.hidden |= 1 << (given.n + random.edge(past));
    }
}

fn table(given: &mut Given, random: &mut Random) {
    let length = random.edge(size(given.n));
    given.table.truncate(length);
}

/// A number of quantities that is none or too large, as in `crate::damage`. Half of the time there is room for 34
/// quantities.
fn n(given: &mut Given, random: &mut Random) {
    given.n = random.pick(&[0, 33, 34, 64, 1 << 31, 1 << 32, (1 << 32) + given.n, 1 << 63, usize::MAX]);
    if random.chance(50) {
        given.table.resize(size(34), NO_RULE);
        given.out = given.out.max(1000);
    }
}
