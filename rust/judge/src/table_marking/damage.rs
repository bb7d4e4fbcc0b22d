//! Calls that are damaged in one way or several, so that the order of the refusals shows. What is due of them is `given`'s to
//! say: a word past a sheet's limit may be within a script's.

use super::given::Given;
use crate::meaning::{script_limit, size, terms, LIMIT, MOST_QUANTITIES, NO_RULE};
use crate::random::Random;

/// The call, damaged in at least one way. n comes last: the other ways go by the right one.
pub fn damaged(mut given: Given, random: &mut Random) -> Given {
    let ways = [sheet_word, script_word, named, set, sheet, script, workspace, values, n];
    let certain = random.below(ways.len());
    for (number, way) in ways.iter().enumerate() {
        if number == certain || random.chance(12) {
            way(&mut given, random);
        }
    }
    given
}

/// A word past a sheet's limit by one, by far, or within a script's.
fn sheet_word(given: &mut Given, random: &mut Random) {
    let place = random.edge(size(given.n));
    given.sheet[place] = past(LIMIT, given, random);
}

/// A word past a script's limit by one or by far, or at it.
fn script_word(given: &mut Given, random: &mut Random) {
    let limit = script_limit(given.hidden);
    let visible: Vec<usize> = places(given, false);
    // one that names a hidden quantity gives a second reason
    let place = match visible.is_empty() || random.chance(20) {
        true => random.edge(size(given.n)),
        false => visible[random.edge(visible.len())],
    };
    given.script[place] = past(limit, given, random);
}

fn past(limit: i64, given: &Given, random: &mut Random) -> i64 {
    let script = script_limit(given.hidden);
    let words = [limit + 1, -limit - 1, limit + 1, -limit - 1, script, -script, 2 * limit];
    let far = [i64::MIN, i64::MIN + 1, NO_RULE - 1, 1 << 62, -(1 << 62)];
    match random.chance(80) {
        true => random.pick(&words),
        false => random.pick(&far),
    }
}

/// A rule of the script on a hidden quantity, which says next to nothing half of the time.
fn named(given: &mut Given, random: &mut Random) {
    let places = places(given, true);
    if !places.is_empty() {
        let bound = random.within(-9, 9);
        given.script[places[random.edge(places.len())]] =
            random.pick(&[LIMIT, script_limit(given.hidden), bound, bound]);
    }
}

/// The places of terms that name a hidden quantity, or those of all others.
fn places(given: &Given, hidden: bool) -> Vec<usize> {
    let terms = terms(given.n);
    (0..terms.len()).filter(|&place| terms[place].names(given.hidden) == hidden).collect()
}

/// A hidden quantity past n; there is none at 32.
fn set(given: &mut Given, random: &mut Random) {
    let past = MOST_QUANTITIES - given.n;
    if past > 0 {
        given.hidden |= 1 << (given.n + random.edge(past));
    }
}

fn sheet(given: &mut Given, random: &mut Random) {
    given.sheet.truncate(random.edge(size(given.n)));
}

fn script(given: &mut Given, random: &mut Random) {
    given.script.truncate(random.edge(size(given.n)));
}

/// Often as long as a key would need.
fn workspace(given: &mut Given, random: &mut Random) {
    let any = random.edge(2 * size(given.n));
    given.workspace = random.pick(&[any, any, size(given.n)]);
}

fn values(given: &mut Given, random: &mut Random) {
    given.values = random.edge(given.n);
}

/// A number of quantities that is none or too large, as in `crate::damage`. Half of the time there is room for 34.
fn n(given: &mut Given, random: &mut Random) {
    given.n = random.pick(&[0, 33, 34, 64, 1 << 31, 1 << 32, (1 << 32) + given.n, 1 << 63, usize::MAX]);
    if random.chance(50) {
        given.sheet.resize(size(34), NO_RULE);
        given.script.resize(size(34), NO_RULE);
        given.workspace = 2 * size(34);
        given.values = 34;
    }
}
