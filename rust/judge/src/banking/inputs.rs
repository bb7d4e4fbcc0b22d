//! Random bank sheets, and texts that are none, of which it is `due`'s to say what is due.

use super::changes;
use crate::marking::spelling;
use crate::meaning::{size, LIMIT, MOST_QUANTITIES, NO_RULE};
use crate::random::Random;
use crate::sheets::{hidden_set, Sheet};
use crate::text::paper::Paper;
use crate::text::written::Written;
use crate::text::{damage, drafts, noise};

/// A table whose words are within a sheet's limits: few quantities often, for there places are dense, and few rules of
/// many.
pub fn sheet(random: &mut Random) -> Sheet {
    let n = match random.below(8) {
        0 => 1,
        1 | 2 => 2 + random.below(3),
        3 => MOST_QUANTITIES,
        _ => 1 + random.below(MOST_QUANTITIES),
    };
    let all = size(n);
    let wanted = match random.below(40) {
        0 => all,
        1 => all / 2,
        _ => random.pick(&[0, 1, 2, 3, n / 2 + 1, n, n, 2 * n, all.min(40), all.min(80)]),
    };
    let mut table: Vec<i64> =
        (0..all).map(|_| if random.below(all) < wanted { drafts::bound(random) } else { NO_RULE }).collect();
    // an order that begins too late or ends too early passes over one of these
    if wanted > 0 && random.chance(50) {
        let ends = random.pick(&[[0, 0], [0, 1], [all - 1, all - 1], [all - 2, all - 1], [0, all - 1]]);
        ends.into_iter().for_each(|place| table[place] = drafts::bound(random));
    }
    Sheet { n, hidden: hidden_set(n, random), table }
}

/// A text about which nothing is known: the sheet's own, damaged, or with its rules in another order or otherwise spelled,
/// or no bank sheet at all.
pub fn text(sheet: &Sheet, random: &mut Random) -> Vec<u8> {
    let own = Paper::of(sheet);
    match random.below(14) {
        0 => noise::any(random),
        1 => noise::swollen(&own, random),
        2..=4 => damage::damaged(&own, random),
        5 => drafts::any(random).text(),
        6 | 7 => spelling::paper(sheet, LIMIT, random).text(),
        8 => damage::damaged(&spelling::paper(sheet, LIMIT, random), random),
        9 | 10 => reordered(own, random).text(),
        _ => damage::in_bytes(changes::drawn(sheet, random).text, random),
    }
}

/// The rules in an order that might be taken for the right one, or in any.
fn reordered(mut paper: Paper, random: &mut Random) -> Paper {
    let high = |rule: &Written| rule.second.unwrap_or(rule.first).quantity;
    match random.below(7) {
        0 => paper.rules.reverse(),
        1 => paper.rules.sort_by_key(|rule| (rule.first.quantity, high(rule))),
        2 => paper.rules.sort_by_key(|rule| rule.to_string()),
        3 => paper.rules.sort_by_key(|rule| (rule.second.is_some(), high(rule))),
        4 => paper.rules.sort_by_key(|rule| (high(rule), rule.second.is_none())),
        5 => paper.rules.sort_by_key(|rule| rule.bound),
        _ => random.shuffle(&mut paper.rules),
    }
    paper
}
