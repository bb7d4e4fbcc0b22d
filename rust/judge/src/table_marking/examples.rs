//! Pairs of tables with what is due stated by hand: the number, and the rule where one is written.

use super::check::{self, Owed};
use super::counts::Counts;
use super::given::Given;
use crate::document::{table, Short};
use crate::library::{
    spelled, too_short, Reply, TableMarker, EQUAL, LOOSE, MISMATCH, NOTHING, PAST_LIMIT, SIZE, TIGHT,
};
use crate::meaning::{size, LIMIT};
use crate::random::Random;

/// How often an example is judged, with different memory.
const TURNS: u64 = 4;

/// A script's rules, the number, and the rule's words where they are written.
type Script = (&'static [Short], u32, Option<[i64; 3]>);

/// A sheet and scripts for it.
struct Group {
    n: usize,
    hidden: u32,
    sheet: &'static [Short],
    scripts: &'static [Script],
}

const PAST: u32 = PAST_LIMIT.number;
/// The limit of a script with 31 hidden quantities.
const FARTHEST: i64 = LIMIT << 31;

const GROUPS: [Group; 7] = [
    // document 01's sheet A
    Group {
        n: 3,
        hidden: 0b010,
        sheet: &[(1, 2, 5), (1, -2, 2), (3, -2, 0)],
        scripts: &[
            (&[(1, 0, 3), (1, 3, 5)], EQUAL, None),
            (&[(1, 1, 7), (1, 3, 5)], EQUAL, None),
            (&[(1, 0, 3)], LOOSE, Some([1, 3, 5])),
            (&[(1, 0, 2), (1, 3, 5)], TIGHT, Some([1, 0, 2])),
            (&[(1, 0, 2)], LOOSE, Some([1, 3, 5])),
            (&[(1, 0, 3), (1, 3, 5), (2, 0, LIMIT)], MISMATCH, None),
            (&[(1, 0, 3), (1, -2, 2 * LIMIT)], MISMATCH, None),
            (&[(1, 0, 3), (1, -2, 2 * LIMIT + 1)], PAST, None),
        ],
    },
    // the key's bound is at a script's limit, which is twice a sheet's
    Group {
        n: 3,
        hidden: 0b010,
        sheet: &[(1, -2, LIMIT), (2, -3, LIMIT)],
        scripts: &[
            (&[(1, -3, 2 * LIMIT)], EQUAL, None),
            (&[(1, -3, 2 * LIMIT - 1)], TIGHT, Some([1, -3, 2 * LIMIT - 1])),
            (&[(1, -3, 2 * LIMIT + 1)], PAST, None),
            (&[(1, -3, 2 * LIMIT), (3, 0, -2 * LIMIT)], TIGHT, Some([3, 0, -2 * LIMIT])),
            (&[(1, -3, 2 * LIMIT), (3, 0, -2 * LIMIT - 1)], PAST, None),
            (&[(1, 0, 2 * LIMIT)], LOOSE, Some([1, -3, 2 * LIMIT])),
        ],
    },
    // a sheet's limit is the same whatever is hidden
    Group { n: 3, hidden: 0b010, sheet: &[(1, -3, LIMIT + 1)], scripts: &[(&[], PAST, None)] },
    // nothing is hidden
    Group {
        n: 1,
        hidden: 0,
        sheet: &[(1, 0, LIMIT)],
        scripts: &[(&[(1, 0, LIMIT)], EQUAL, None), (&[(1, 0, LIMIT + 1)], PAST, None)],
    },
    // as much as can be hidden with something to say
    Group {
        n: 32,
        hidden: u32::MAX >> 1,
        sheet: &[],
        scripts: &[
            (&[], EQUAL, None),
            (&[(32, 0, FARTHEST)], TIGHT, Some([32, 0, FARTHEST])),
            (&[(-32, 0, -FARTHEST)], TIGHT, Some([-32, 0, -FARTHEST])),
            (&[(32, 0, FARTHEST + 1)], PAST, None),
            (&[(-32, 0, -FARTHEST - 1)], PAST, None),
            (&[(31, 0, FARTHEST)], MISMATCH, None),
        ],
    },
    // all is hidden: one choice, which is allowed
    Group {
        n: 32,
        hidden: u32::MAX,
        sheet: &[(1, 0, 0)],
        scripts: &[
            (&[], EQUAL, None),
            (&[(32, 0, 2 * FARTHEST)], MISMATCH, None),
            (&[(32, 0, 2 * FARTHEST + 1)], PAST, None),
        ],
    },
    // a sheet that nothing satisfies is marked, and a loose verdict has no rule
    Group {
        n: 1,
        hidden: 0,
        sheet: &[(1, 0, 0), (-1, 0, -1)],
        scripts: &[(&[(1, 0, 0), (-1, 0, -1)], EQUAL, None), (&[], LOOSE, Some(NOTHING))],
    },
];

/// Judges all examples. They are counted as such and not by their numbers.
pub fn all(library: &dyn TableMarker, counts: &mut Counts) -> Result<(), String> {
    for part in [verdicts(library), refusals(library)] {
        counts.examples += part.map_err(|e| format!("example: {e}"))?;
    }
    Ok(())
}

/// Calls with as many words as are needed.
fn verdicts(library: &dyn TableMarker) -> Result<usize, String> {
    for Group { n, hidden, sheet, scripts } in GROUPS {
        for &(script, number, rule) in scripts {
            let [sheet, script] = [sheet, script].map(|rules| table(n, rules));
            let given = Given { n, hidden, sheet, script, workspace: 2 * size(n), values: n };
            example(library, &given, Reply { number, value: 0 }, rule)?;
        }
    }
    Ok(GROUPS.iter().map(|group| group.scripts.len()).sum())
}

/// Sheet A as its own script, which names the hidden quantity, with less and less that is wrong before.
fn refusals(library: &dyn TableMarker) -> Result<usize, String> {
    let sheet = table(3, GROUPS[0].sheet);
    let past = [&sheet[..17], &[2 * LIMIT + 1]].concat();
    let short = sheet[..17].to_vec();
    let given = |n, hidden, sheet: &[i64], script: &[i64], workspace, values| {
        let (sheet, script) = (sheet.to_vec(), script.to_vec());
        Given { n, hidden, sheet, script, workspace, values }
    };
    let cases = [
        (given(0, 8, &short, &short, 0, 0), SIZE),
        (given(33, 8, &past, &past, 0, 0), SIZE),
        (given(3, 8, &short, &past, 0, 0), SIZE),
        (given(3, 8, &past, &short, 0, 0), SIZE),
        (given(3, 8, &past, &past, 35, 2), too_short(36)),
        (given(3, 8, &past, &past, 18, 3), too_short(36)),
        (given(3, 8, &past, &past, 36, 2), too_short(3)),
        (given(3, 8 + 2, &sheet, &sheet, 36, 3), PAST_LIMIT),
        (given(3, 2, &past, &sheet, 36, 3), PAST_LIMIT),
        (given(3, 2, &sheet, &past, 36, 3), PAST_LIMIT),
        (given(3, 2, &sheet, &sheet, 36, 3), Reply { number: MISMATCH, value: 0 }),
        (given(3, 0, &sheet, &sheet, 36, 3), Reply { number: EQUAL, value: 0 }),
    ];
    cases.iter().try_for_each(|(given, reply)| example(library, given, *reply, None))?;
    Ok(cases.len())
}

/// Judges a marking with this reply and this rule.
fn example(library: &dyn TableMarker, given: &Given, reply: Reply, rule: Option<[i64; 3]>) -> Result<(), String> {
    let owed = Owed::of(given)?;
    if (owed.reply(), owed.rule()) != (reply, rule) {
        return Err(format!("the judges differ: {} and rule {rule:?} are stated for\n{given}", spelled(reply)));
    }
    (0..TURNS).try_for_each(|turn| {
        check::tables(library, given, &mut Random::new(0, turn), &mut Counts::default()).map(|_| ())
    })
}
