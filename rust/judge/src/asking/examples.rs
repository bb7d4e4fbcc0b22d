//! Lists with what is due stated by hand: each answer, or the refusal.

use super::check;
use super::counts::Counts;
use super::due::Owed;
use super::given::{Given, Words};
use crate::document::{table, Short};
use crate::library::{spelled, too_short, Asker, Reply, CANCELLING, DONE, LIST_SIZE, NO_ASSIGNMENT, PAST_LIMIT, SIZE};
use crate::meaning::{size, LIMIT};
use crate::random::Random;

/// How often an example is judged, with different memory.
const TURNS: u64 = 4;

/// A sheet and questions to it with their answers.
struct Group {
    n: usize,
    sheet: &'static [Short],
    questions: &'static [(Words, bool)],
}

/// Document 01's sheet A.
const A: &[Short] = &[(1, 2, 5), (1, -2, 2), (3, -2, 0)];

const GROUPS: [Group; 6] = [
    // quantity 2 is no more hidden than the others
    Group {
        n: 3,
        sheet: A,
        questions: &[
            ([1, 0, 3], true),
            ([1, 0, 2], false),
            ([1, 1, 7], true),
            ([1, 1, 6], true),
            ([1, 1, 5], false),
            ([1, 3, 5], true),
            ([3, 1, 5], true),
            ([1, 3, 4], false),
            ([-1, 0, LIMIT], false),
            ([3, 0, LIMIT], false),
            ([3, -2, 0], true),
            ([-2, 3, 0], true),
            ([2, -3, LIMIT], false),
            ([1, -2, 2], true),
            ([-2, 1, 1], false),
            ([2, 0, LIMIT], false),
        ],
    },
    // a doubled term below 0: twice at most -1 is once at most -1, twice at most -3 is once at most -2
    Group {
        n: 1,
        sheet: &[(1, 0, -1)],
        questions: &[
            ([1, 1, -1], true),
            ([1, 1, -2], true),
            ([1, 1, -3], false),
            ([1, 0, -1], true),
            ([1, 0, -2], false),
        ],
    },
    // only integers count: fractions would reach one half
    Group {
        n: 2,
        sheet: &[(1, 2, 1), (1, -2, 0)],
        questions: &[([1, 0, 0], true), ([1, 1, 0], true), ([1, 1, 1], true), ([1, 1, -1], false), ([1, 2, 0], false)],
    },
    // a least bound past every limit, above and below
    Group {
        n: 2,
        sheet: &[(1, 0, LIMIT), (-1, 2, LIMIT)],
        questions: &[([2, 0, LIMIT], false), ([1, 2, LIMIT], false), ([2, 2, LIMIT], false), ([-1, 2, LIMIT], true)],
    },
    Group {
        n: 2,
        sheet: &[(1, 0, -LIMIT), (-1, 2, -LIMIT)],
        questions: &[([2, 0, -LIMIT], true), ([2, 1, -LIMIT], true), ([2, 2, -LIMIT], true), ([2, -1, -LIMIT], true)],
    },
    // the largest n
    Group {
        n: 32,
        sheet: &[(31, 32, 0), (31, -32, 0)],
        questions: &[
            ([31, 0, 0], true),
            ([32, 31, 0], true),
            ([-32, 31, 0], true),
            ([32, 0, 0], false),
            ([1, 0, 0], false),
        ],
    },
];

/// Judges all examples. They are counted as such and not by their numbers.
pub fn all(library: &dyn Asker, counts: &mut Counts) -> Result<(), String> {
    for part in [answers(library), refusals(library), lengths(library)] {
        counts.examples += part.map_err(|e| format!("example: {e}"))?;
    }
    Ok(())
}

/// Each group as one list, and each of its questions alone.
fn answers(library: &dyn Asker) -> Result<usize, String> {
    for Group { n, sheet, questions } in GROUPS {
        let (words, yes): (Vec<Words>, Vec<bool>) = questions.iter().copied().unzip();
        answered(library, &given(n, sheet, &words), &yes)?;
        for (words, yes) in questions {
            answered(library, &given(n, sheet, &[*words]), &[*yes])?;
        }
    }
    Ok(GROUPS.iter().map(|group| 1 + group.questions.len()).sum())
}

/// As many questions as may be, with answers that differ in the last bit, and one more.
fn lengths(library: &dyn Asker) -> Result<usize, String> {
    for last in [true, false] {
        let mut yes: Vec<bool> = (0..64).map(|at| at % 3 == 0).collect();
        yes[63] = last;
        let words: Vec<Words> = yes.iter().map(|&yes| [1, 0, if yes { 3 } else { 2 }]).collect();
        answered(library, &given(3, A, &words), &yes)?;
        // words behind the last question say nothing
        let mut behind = given(3, A, &words);
        behind.questions.extend([0, i64::MIN]);
        answered(library, &behind, &yes)?;
        let more = [&words[..], &[[1, 0, 3]]].concat();
        refused(library, &Given { workspace: 0, ..given(3, A, &more) }, LIST_SIZE)?;
        refused(library, &Given { workspace: 17, ..given(3, A, &words) }, too_short(18))?;
    }
    Ok(8)
}

fn refusals(library: &dyn Asker) -> Result<usize, String> {
    let none: &[Short] = &[(1, 0, 0), (-1, 0, -1)];
    let past = |place: usize, word: i64| {
        let mut given = given(3, A, &[[1, -1, 0]]);
        given.table[place] = word;
        given
    };
    let cases = [
        (Given { n: 0, ..given(3, A, &[]) }, SIZE),
        (Given { n: 33, ..given(3, A, &[]) }, SIZE),
        (Given { table: vec![0; 17], workspace: 0, ..given(3, A, &[]) }, SIZE),
        (Given { workspace: 0, ..given(3, A, &[]) }, LIST_SIZE),
        (Given { questions: vec![9, 9], ..given(3, A, &[]) }, LIST_SIZE),
        (Given { workspace: 17, ..past(17, LIMIT + 1) }, too_short(18)),
        // before 4
        (past(17, LIMIT + 1), PAST_LIMIT),
        (past(0, -LIMIT - 1), PAST_LIMIT),
        (given(3, A, &[[1, -1, 0], [4, 0, 0]]), PAST_LIMIT),
        (given(3, A, &[[1, -1, 0], [-4, 0, 0]]), PAST_LIMIT),
        (given(3, A, &[[1, -1, 0], [1, 4, 0]]), PAST_LIMIT),
        (given(3, A, &[[1, -1, 0], [0, 0, 0]]), PAST_LIMIT),
        (given(3, A, &[[1, -1, 0], [0, 1, 0]]), PAST_LIMIT),
        (given(3, A, &[[1, -1, 0], [1, 0, LIMIT + 1]]), PAST_LIMIT),
        (given(3, A, &[[1, -1, 0], [1, 0, -LIMIT - 1]]), PAST_LIMIT),
        (given(3, A, &[[1, -1, 0], [1, 1, 2 * LIMIT]]), PAST_LIMIT),
        (given(3, A, &[[4, -4, 0]]), PAST_LIMIT),
        (given(1, none, &[[1, 0, 0], [2, 0, 0]]), PAST_LIMIT),
        // before 5
        (given(3, A, &[[1, 0, 3], [3, -3, 5]]), CANCELLING),
        (given(3, A, &[[-2, 2, -5], [1, 0, 3]]), CANCELLING),
        (given(1, none, &[[1, -1, 0]]), CANCELLING),
        (given(1, none, &[[1, 0, 0]]), NO_ASSIGNMENT),
        // one half fits
        (given(1, &[(1, 1, 1), (-1, -1, -1)], &[[1, 1, 1]]), NO_ASSIGNMENT),
    ];
    cases.iter().try_for_each(|(given, reply)| refused(library, given, *reply))?;
    Ok(cases.len())
}

/// A call with as many words as are needed.
fn given(n: usize, sheet: &[Short], questions: &[Words]) -> Given {
    Given { n, table: table(n, sheet), questions: questions.concat(), workspace: size(n) }
}

fn answered(library: &dyn Asker, given: &Given, yes: &[bool]) -> Result<(), String> {
    match Owed::of(given)? {
        Owed::Answers(answers) if answers.yes == yes => judged(library, given),
        _ => Err(format!("the judges differ: {yes:?} is stated for\n{given}")),
    }
}

fn refused(library: &dyn Asker, given: &Given, reply: Reply) -> Result<(), String> {
    match Owed::of(given)?.reply() {
        found if found == reply && reply != DONE => judged(library, given),
        _ => Err(format!("the judges differ: {} is stated for\n{given}", spelled(reply))),
    }
}

fn judged(library: &dyn Asker, given: &Given) -> Result<(), String> {
    (0..TURNS)
        .try_for_each(|turn| check::list(library, given, &mut Random::new(0, turn), &mut Counts::default()).map(|_| ()))
}
