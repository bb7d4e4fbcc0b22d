//! Document 01's sheets to try, as far as they are about keys and assignments, and some for the tightest key of document 02.

use crate::check;
use crate::counts::Counts;
use crate::library::{Key, Library, NO_ASSIGNMENT};
use crate::meaning::{size, Literal};
use crate::random::Random;
use crate::sheets::Sheet;
use crate::text::written::{self, Written};

/// A rule as written: two signed quantities, the second 0 where there is none, and the bound.
pub(crate) type Short = (i64, i64, i64);

struct Example {
    n: usize,
    hidden: u32,
    rules: &'static [Short],
    /// the rules of its key, or none where there is no assignment
    key: Option<&'static [Short]>,
}

const BILLION: i64 = 1_000_000_000;

/// Document 01's. The tightest key is the same for all of them.
const EXAMPLES: [Example; 8] = [
    // sheet A
    Example { n: 3, hidden: 0b010, rules: &[(1, 2, 5), (1, -2, 2), (3, -2, 0)], key: Some(&[(1, 0, 3), (1, 3, 5)]) },
    Example { n: 1, hidden: 0, rules: &[(1, 1, -1)], key: Some(&[(1, 0, -1)]) },
    // one half fits
    Example { n: 1, hidden: 0, rules: &[(1, 1, 1), (-1, -1, -1)], key: None },
    // seen only after both quantities go
    Example { n: 2, hidden: 0b01, rules: &[(1, 2, 1), (-1, -2, -1), (1, -2, 0), (-1, 2, 0)], key: None },
    Example { n: 2, hidden: 0b10, rules: &[(1, 2, 0)], key: Some(&[]) },
    Example { n: 3, hidden: 0b010, rules: &[(1, -2, BILLION), (2, -3, BILLION)], key: Some(&[(1, -3, 2 * BILLION)]) },
    // nothing is visible and nothing is said
    Example { n: 1, hidden: 0b1, rules: &[], key: Some(&[]) },
    // the largest n with the largest bound
    Example { n: 32, hidden: 0, rules: &[(1, 32, BILLION)], key: Some(&[(1, 32, BILLION)]) },
];

/// With the tightest key, which by document 02, request 2, is another than the key.
const TIGHTEST: [Example; 6] = [
    // a bound past a script's limit
    Example {
        n: 2,
        hidden: 0,
        rules: &[(1, 0, BILLION), (-1, 2, BILLION)],
        key: Some(&[(1, 0, BILLION), (2, 0, 2 * BILLION), (1, 2, 3 * BILLION), (-1, 2, BILLION)]),
    },
    // two sheets with one meaning
    Example { n: 2, hidden: 0, rules: &[(1, 0, 1), (2, 0, 1)], key: Some(&[(1, 0, 1), (2, 0, 1), (1, 2, 2)]) },
    Example {
        n: 2,
        hidden: 0,
        rules: &[(1, 0, 1), (2, 0, 1), (1, 2, 7)],
        key: Some(&[(1, 0, 1), (2, 0, 1), (1, 2, 2)]),
    },
    // an odd sum halved
    Example { n: 2, hidden: 0, rules: &[(1, 2, 1), (1, -2, 0)], key: Some(&[(1, 0, 0), (1, 2, 1), (1, -2, 0)]) },
    // what halving leaves is added again
    Example {
        n: 2,
        hidden: 0,
        rules: &[(1, -2, 0), (-1, 2, 0), (1, 2, 1)],
        key: Some(&[(1, 0, 0), (2, 0, 0), (1, 2, 0), (1, -2, 0), (-1, 2, 0)]),
    },
    // two visible quantities are equal by a hidden one
    Example {
        n: 3,
        hidden: 0b100,
        rules: &[(1, -3, 0), (-1, 3, 0), (2, -3, 0), (-2, 3, 0), (1, 0, 5)],
        key: Some(&[(1, 0, 5), (2, 0, 5), (1, 2, 10), (1, -2, 0), (-1, 2, 0)]),
    },
];

pub fn examples(library: &dyn Library, counts: &mut Counts) -> Result<(), String> {
    for (number, example) in EXAMPLES.iter().enumerate() {
        tried(library, number, example, &Key::BOTH).map_err(|e| format!("example {number} of document 01: {e}"))?;
        counts.examples += 1;
    }
    for (number, example) in TIGHTEST.iter().enumerate() {
        tried(library, number, example, &[Key::Tight]).map_err(|e| format!("example {number} of request 2: {e}"))?;
        counts.examples += 1;
    }
    Ok(())
}

/// Judges an example as any sheet, then these keys by what is stated.
fn tried(library: &dyn Library, number: usize, example: &Example, keys: &[Key]) -> Result<(), String> {
    let sheet = Sheet { n: example.n, hidden: example.hidden, table: table(example.n, example.rules) };
    let mut random = Random::new(0, number as u64);
    // the examples are counted as such and not as sheets
    check::sheet(library, &sheet, &mut random, &mut Counts::default())
        .and_then(|()| keys.iter().try_for_each(|&key| stated(library, key, example, &sheet)))
        .map_err(|e| format!("{e}\n{sheet}"))
}

/// Is the key the one that the document states?
fn stated(library: &dyn Library, key: Key, example: &Example, sheet: &Sheet) -> Result<(), String> {
    let mut found = sheet.table.clone();
    let reply = library.keyed(key, sheet.n, sheet.hidden, &mut found, &mut vec![0; size(sheet.n)]);
    match example.key {
        None if reply != NO_ASSIGNMENT => Err("the document says that it has no assignment".into()),
        Some(rules) if found != table(sheet.n, rules) => Err(format!("the document has another {}", key.name())),
        _ => Ok(()),
    }
}

/// The table that these rules are read into.
pub(crate) fn table(n: usize, rules: &[Short]) -> Vec<i64> {
    let written = |&(first, second, bound): &Short| {
        let second = (second != 0).then(|| literal(second));
        Written { first: literal(first), second, bound }
    };
    written::table(n, &rules.iter().map(written).collect::<Vec<_>>())
}

fn literal(signed: i64) -> Literal {
    Literal { sign: signed.signum(), quantity: signed.unsigned_abs() as usize }
}
