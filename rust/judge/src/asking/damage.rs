//! Calls that are damaged in one way or several, so that the order of the refusals shows. What is due of them is `given`'s to
//! say.

use super::given::Given;
use crate::meaning::{size, LIMIT, MOST_QUANTITIES, MOST_QUESTIONS, NO_RULE};
use crate::random::Random;

/// The call, damaged in at least one way. n comes last: the other ways go by the right one. A list that is emptied comes before
/// one that is lengthened, which has all its questions.
pub fn damaged(mut given: Given, random: &mut Random) -> Given {
    let ways = [word, quantity, bound, cancelled, emptied, lengthened, table, workspace, n];
    let certain = random.below(ways.len());
    for (number, way) in ways.iter().enumerate() {
        if number == certain || random.chance(12) {
            way(&mut given, random);
        }
    }
    given
}

/// A word of the table past the limit, by one or by far.
fn word(given: &mut Given, random: &mut Random) {
    let place = random.edge(size(given.n));
    given.table[place] = random.pick(&[LIMIT + 1, -LIMIT - 1, i64::MIN, NO_RULE - 1, 1 << 62]);
}

/// The first word of a question: of the first, of the last or of one between them.
fn place(given: &Given, random: &mut Random) -> usize {
    3 * random.edge(given.questions.len() / 3)
}

/// A first quantity that is none, or either past n, by one or by far. At some of them a narrower word would be a quantity.
fn quantity(given: &mut Given, random: &mut Random) {
    let next = given.n as i64 + 1;
    let past =
        [next, -next, next, -next, 33, -33, 1 << 32, (1 << 32) + 1, (1 << 62) + 1, i64::MAX, i64::MIN, i64::MIN + 1];
    let at = place(given, random);
    let (second, word) = (random.below(2), random.pick(&past));
    given.questions[at + second] = if second == 0 && random.chance(25) { 0 } else { word };
}

/// A bound past the limit, by one or by far. That of a doubled term counts as it is written, though halved it would be within.
fn bound(given: &mut Given, random: &mut Random) {
    let at = place(given, random);
    if random.chance(40) {
        given.questions[at + 1] = given.questions[at];
    }
    let past = [LIMIT + 1, -LIMIT - 1, LIMIT + 1, -LIMIT - 1, 2 * LIMIT, -2 * LIMIT, i64::MIN, i64::MAX, 1 << 32];
    given.questions[at + 2] = random.pick(&past);
}

/// A question whose quantities cancel.
fn cancelled(given: &mut Given, random: &mut Random) {
    let at = place(given, random);
    given.questions[at + 1] = given.questions[at].wrapping_neg();
}

/// No whole question, of which two words may be there.
fn emptied(given: &mut Given, random: &mut Random) {
    given.questions.truncate(random.below(3));
}

/// More questions than may be, the same ones again, or those of a list that was emptied made up. Of some counts a narrower
/// number would be within.
fn lengthened(given: &mut Given, random: &mut Random) {
    if given.questions.len() < 3 {
        if random.chance(70) {
            return;
        }
        given.questions = vec![1, 0, 0];
    }
    let count = random.pick(&[MOST_QUESTIONS + 1, MOST_QUESTIONS + 1, 66, 128, 129, 256, 257, 320]);
    let again: Vec<i64> =
        given.questions[..given.questions.len() / 3 * 3].iter().copied().cycle().take(3 * count).collect();
    given.questions = again;
    given.questions.extend(random.words(2).iter().take(random.below(3)));
}

fn table(given: &mut Given, random: &mut Random) {
    given.table.truncate(random.edge(size(given.n)));
}

fn workspace(given: &mut Given, random: &mut Random) {
    given.workspace = random.edge(size(given.n));
}

/// A number of quantities that is none or too large, as in `crate::damage`. Half of the time there is room for 34.
fn n(given: &mut Given, random: &mut Random) {
    given.n = random.pick(&[0, 33, 34, 64, 1 << 31, 1 << 32, (1 << 32) + given.n, 1 << 63, usize::MAX]);
    if random.chance(50) {
        given.table.resize(size(MOST_QUANTITIES + 2), NO_RULE);
        given.workspace = size(MOST_QUANTITIES + 2);
    }
}
