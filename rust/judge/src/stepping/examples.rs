//! Steps with what is due stated by hand: the rules of the table after each number of blocks, or the refusal.

use super::check;
use super::counts::Counts;
use super::due::{Owed, Tables};
use super::given::Given;
use crate::document::{table, Short};
use crate::library::{spelled, too_short, Reply, Step, Stepper, DONE, NO_ASSIGNMENT, PAST_LIMIT, SIZE};
use crate::meaning::{size, LIMIT};
use crate::random::Random;

/// How often an example is judged, with different memory.
const TURNS: u64 = 4;

/// A step on a sheet, and the rules after 0 blocks, after 1 and so on to n + 1.
struct Followed {
    n: usize,
    sheet: &'static [Short],
    before: u32,
    quantity: usize,
    rules: &'static [&'static [Short]],
}

/// Document 01's sheet A.
const A: &[Short] = &[(1, 2, 5), (1, -2, 2), (3, -2, 0)];

const FOLLOWED: [Followed; 9] = [
    // twice quantity 1 is at most 7; no sum is of the second block
    Followed {
        n: 3,
        sheet: A,
        before: 0,
        quantity: 2,
        rules: &[
            A,
            &[(1, 0, 3), (1, 2, 5), (1, -2, 2), (3, -2, 0)],
            &[(1, 0, 3), (1, 2, 5), (1, -2, 2), (3, -2, 0)],
            &[(1, 0, 3), (1, 2, 5), (1, -2, 2), (1, 3, 5), (3, -2, 0)],
            &[(1, 0, 3), (1, 3, 5)],
        ],
    },
    // a quantity of which no rule has the other sign: nothing is added, and its rules go
    Followed { n: 3, sheet: A, before: 0, quantity: 3, rules: &[A, A, A, A, &[(1, 2, 5), (1, -2, 2)]] },
    // after quantity 2 the rules of quantity 1 are two, and it has none with -1
    Followed {
        n: 3,
        sheet: A,
        before: 0b010,
        quantity: 1,
        rules: &[
            &[(1, 0, 3), (1, 3, 5)],
            &[(1, 0, 3), (1, 3, 5)],
            &[(1, 0, 3), (1, 3, 5)],
            &[(1, 0, 3), (1, 3, 5)],
            &[],
        ],
    },
    // hidden before already
    Followed {
        n: 3,
        sheet: A,
        before: 0b010,
        quantity: 2,
        rules: &[
            &[(1, 0, 3), (1, 3, 5)],
            &[(1, 0, 3), (1, 3, 5)],
            &[(1, 0, 3), (1, 3, 5)],
            &[(1, 0, 3), (1, 3, 5)],
            &[(1, 0, 3), (1, 3, 5)],
        ],
    },
    // lone rules are added too, and two of them give a bare sum
    Followed {
        n: 2,
        sheet: &[(1, 0, 4), (-1, 0, 0), (1, 2, 5), (-1, 2, 1)],
        before: 0,
        quantity: 1,
        rules: &[
            &[(1, 0, 4), (-1, 0, 0), (1, 2, 5), (-1, 2, 1)],
            &[(1, 0, 4), (-1, 0, 0), (1, 2, 5), (-1, 2, 1)],
            &[(1, 0, 4), (-1, 0, 0), (2, 0, 3), (1, 2, 5), (-1, 2, 1)],
            &[(2, 0, 3)],
        ],
    },
    // -3 halved is -2; the smaller of a rule and a sum stays
    Followed {
        n: 2,
        sheet: &[(1, 2, -2), (1, -2, -1), (1, 0, 7), (-1, 0, 9)],
        before: 0,
        quantity: 2,
        rules: &[
            &[(1, 2, -2), (1, -2, -1), (1, 0, 7), (-1, 0, 9)],
            &[(1, 2, -2), (1, -2, -1), (1, 0, -2), (-1, 0, 9)],
            &[(1, 2, -2), (1, -2, -1), (1, 0, -2), (-1, 0, 9)],
            &[(1, 0, -2), (-1, 0, 9)],
        ],
    },
    // a sum of the first block is no part of another sum: +2:5 does not come of +1:0 and -1+2:5
    Followed {
        n: 3,
        sheet: &[(1, 3, 0), (1, -3, 0), (-1, 2, 5)],
        before: 0,
        quantity: 3,
        rules: &[
            &[(1, 3, 0), (1, -3, 0), (-1, 2, 5)],
            &[(1, 0, 0), (1, 3, 0), (1, -3, 0), (-1, 2, 5)],
            &[(1, 0, 0), (1, 3, 0), (1, -3, 0), (-1, 2, 5)],
            &[(1, 0, 0), (1, 3, 0), (1, -3, 0), (-1, 2, 5)],
            &[(1, 0, 0), (-1, 2, 5)],
        ],
    },
    // bounds past a sheet's limit
    Followed {
        n: 3,
        sheet: &[(1, -2, LIMIT), (2, -3, LIMIT)],
        before: 0,
        quantity: 2,
        rules: &[
            &[(1, -2, LIMIT), (2, -3, LIMIT)],
            &[(1, -2, LIMIT), (2, -3, LIMIT)],
            &[(1, -2, LIMIT), (2, -3, LIMIT)],
            &[(1, -2, LIMIT), (2, -3, LIMIT), (1, -3, 2 * LIMIT)],
            &[(1, -3, 2 * LIMIT)],
        ],
    },
    // one quantity has one block
    Followed { n: 1, sheet: &[(1, 0, 2)], before: 0, quantity: 1, rules: &[&[(1, 0, 2)], &[(1, 0, 2)], &[]] },
];

/// Judges all examples. They are counted as such and not by their numbers.
pub fn all(library: &dyn Stepper, counts: &mut Counts) -> Result<(), String> {
    for part in [followed(library), refusals(library)] {
        counts.examples += part.map_err(|e| format!("example: {e}"))?;
    }
    Ok(())
}

fn followed(library: &dyn Stepper) -> Result<usize, String> {
    for Followed { n, sheet, before, quantity, rules } in FOLLOWED {
        for (blocks, rules) in rules.iter().enumerate() {
            let given = given(n, sheet, Step { before, quantity, blocks });
            match Owed::of(&given)? {
                Owed::Done(Tables { words, .. }) if words == table(n, rules) => judged(library, &given)?,
                _ => return Err(format!("the judges differ: {rules:?} is stated for\n{given}")),
            }
        }
    }
    Ok(FOLLOWED.iter().map(|step| step.rules.len()).sum())
}

fn refusals(library: &dyn Stepper) -> Result<usize, String> {
    let none: &[Short] = &[(1, 0, 0), (-1, 0, -1)];
    let step = Step { before: 0, quantity: 2, blocks: 0 };
    let past = |place: usize, word: i64| {
        let mut given = given(3, A, step);
        given.table[place] = word;
        given
    };
    let first = Step { before: 0, quantity: 1, blocks: 0 };
    let cases = [
        (Given { n: 0, ..given(3, A, step) }, SIZE),
        (Given { n: 33, ..given(3, A, step) }, SIZE),
        (Given { table: vec![0; 17], workspace: 0, ..given(3, A, step) }, SIZE),
        (Given { workspace: 17, ..past(17, LIMIT + 1) }, too_short(18)),
        (Given { workspace: 0, ..given(3, A, Step { before: 8, quantity: 0, blocks: 5 }) }, too_short(18)),
        (past(17, LIMIT + 1), PAST_LIMIT),
        (past(0, -LIMIT - 1), PAST_LIMIT),
        (given(3, A, Step { before: 0b1000, ..step }), PAST_LIMIT),
        (given(3, A, Step { before: 1 << 31, ..step }), PAST_LIMIT),
        (given(3, A, Step { quantity: 0, ..step }), PAST_LIMIT),
        (given(3, A, Step { quantity: 4, ..step }), PAST_LIMIT),
        (given(3, A, Step { quantity: usize::MAX, ..step }), PAST_LIMIT),
        (given(3, A, Step { blocks: 5, ..step }), PAST_LIMIT),
        (given(3, A, Step { blocks: usize::MAX, ..step }), PAST_LIMIT),
        // before 5
        (given(1, none, Step { quantity: 2, ..first }), PAST_LIMIT),
        (given(1, none, Step { blocks: 3, ..first }), PAST_LIMIT),
        (given(1, none, first), NO_ASSIGNMENT),
        (given(1, none, Step { blocks: 2, ..first }), NO_ASSIGNMENT),
        // one half fits
        (given(1, &[(1, 1, 1), (-1, -1, -1)], first), NO_ASSIGNMENT),
        // seen only after both quantities go
        (given(2, &[(1, 2, 1), (-1, -2, -1), (1, -2, 0), (-1, 2, 0)], first), NO_ASSIGNMENT),
    ];
    for (given, reply) in &cases {
        match Owed::of(given)?.reply() {
            found if found == *reply && found != DONE => judged(library, given)?,
            _ => return Err(stated(*reply, given)),
        }
    }
    Ok(cases.len())
}

fn stated(reply: Reply, given: &Given) -> String {
    format!("the judges differ: {} is stated for\n{given}", spelled(reply))
}

/// A call with as many words as are needed.
fn given(n: usize, sheet: &[Short], step: Step) -> Given {
    Given { n, step, table: table(n, sheet), workspace: size(n) }
}

fn judged(library: &dyn Stepper, given: &Given) -> Result<(), String> {
    (0..TURNS)
        .try_for_each(|turn| check::call(library, given, &mut Random::new(0, turn), &mut Counts::default()).map(|_| ()))
}
