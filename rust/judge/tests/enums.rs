//! Is the judge of the crate's enums worth believing? It accepts what the numbers say, and refuses what they do not.

use acornsled::limits::NO_RULE;
use acornsled::{Paper, Refusal, Refused, Rule, Table, Verdict};
use judge::enums::mark::{same, Numbers};
use judge::enums::table::{self, same_refusal};
use judge::library::{Reply, Told, BOTH, EQUAL, LOOSE, NOTHING, SCRIPT, TIGHT};

fn verdict(number: u32, rule: [i64; 3]) -> Numbers {
    Numbers { number, told: Told { paper: 0, value: 0, quantities: 3, rule }, values: vec![3, 0, 3] }
}

fn refused(number: u32, paper: u32, value: usize) -> Numbers {
    Numbers { number, told: Told { paper, value, quantities: 0, rule: [0; 3] }, values: vec![] }
}

const TWO: Rule = Rule::Two { first: 1, second: -3, bound: 5 };
const ONE: Rule = Rule::One { term: -3, bound: -1 };

fn loose(rule: Option<Rule>) -> Result<Verdict, Refused> {
    Ok(Verdict::Loose { rule, values: vec![3, 0, 3] })
}

fn tight(rule: Rule) -> Result<Verdict, Refused> {
    Ok(Verdict::Tight { rule, values: vec![3, 0, 3] })
}

fn refusal(paper: Paper, refusal: Refusal) -> Result<Verdict, Refused> {
    Err(Refused { paper, refusal })
}

#[test]
fn what_the_numbers_say_is_accepted() {
    let right = [
        (Ok(Verdict::Equal), verdict(EQUAL, [7; 3])),
        (loose(Some(TWO)), verdict(LOOSE, [1, -3, 5])),
        (loose(Some(ONE)), verdict(LOOSE, [-3, 0, -1])),
        (loose(None), verdict(LOOSE, NOTHING)),
        (tight(ONE), verdict(TIGHT, [-3, 0, -1])),
        (refusal(Paper::Script, Refusal::Cancelling { line: 5 }), refused(4, SCRIPT, 5)),
        (refusal(Paper::Both, Refusal::Mismatch), refused(7, BOTH, 0)),
        (refusal(Paper::Both, Refusal::TooShort { needed: 32 }), refused(6, BOTH, 32)),
    ];
    for (answer, numbers) in right {
        same(&answer, &numbers).unwrap_or_else(|failure| panic!("{failure}"));
    }
}

#[test]
fn what_they_do_not_say_is_refused() {
    let wrong = [
        (Ok(Verdict::Equal), verdict(LOOSE, [1, -3, 5])),
        (loose(Some(TWO)), verdict(EQUAL, [1, -3, 5])),
        (loose(Some(TWO)), verdict(TIGHT, [1, -3, 5])),
        (tight(TWO), verdict(LOOSE, [1, -3, 5])),
        (loose(Some(TWO)), verdict(LOOSE, [-3, 1, 5])),
        (loose(Some(TWO)), verdict(LOOSE, [1, 3, 5])),
        (loose(Some(TWO)), verdict(LOOSE, [1, -3, 6])),
        (loose(Some(ONE)), verdict(LOOSE, NOTHING)),
        (loose(None), verdict(LOOSE, [1, 0, 5])),
        (loose(None), verdict(LOOSE, [0, 0, i64::MAX])),
        (Ok(Verdict::Tight { rule: TWO, values: vec![3, 0] }), verdict(TIGHT, [1, -3, 5])),
        (Ok(Verdict::Tight { rule: TWO, values: vec![3, 3, 0] }), verdict(TIGHT, [1, -3, 5])),
        (Ok(Verdict::Equal), refused(7, BOTH, 0)),
        (refusal(Paper::Both, Refusal::Mismatch), verdict(EQUAL, [0; 3])),
        (refusal(Paper::Sheet, Refusal::Mismatch), refused(7, BOTH, 0)),
        (refusal(Paper::Script, Refusal::Cancelling { line: 4 }), refused(4, SCRIPT, 5)),
        (refusal(Paper::Script, Refusal::OutOfLimit { line: 5 }), refused(4, SCRIPT, 5)),
        (refusal(Paper::Both, Refusal::TooShort { needed: 31 }), refused(6, BOTH, 32)),
    ];
    for (answer, numbers) in wrong {
        assert!(same(&answer, &numbers).is_err(), "{answer:?} for {}", numbers.number);
    }
}

/// Of questions it is the answers themselves.
#[test]
fn other_answers_are_refused() {
    let done = Reply { number: 0, value: 0 };
    let due = vec![true, false];
    assert!(table::same(&Ok(vec![true, false]), done, &due).is_ok());
    for wrong in [vec![true, true], vec![false, true], vec![true], vec![true, false, false], vec![]] {
        assert!(table::same(&Ok(wrong.clone()), done, &due).is_err(), "{wrong:?}");
    }
    let list = Reply { number: 8, value: 0 };
    assert!(table::same(&Err(Refusal::ListSize), list, &due).is_ok());
    assert!(table::same(&Ok(vec![]), list, &due).is_err());
    assert!(table::same(&Err(Refusal::Mismatch), list, &due).is_err());
    assert_eq!(Refusal::ListSize.to_string(), "refused with 8: the list of questions is empty or has more than 64");
}

/// Of bank sheets it is the table, or the line of the rule.
#[test]
fn other_tables_of_bank_sheets_are_refused() {
    let table = Table { quantities: 1, hidden: 0, words: vec![3, NO_RULE] };
    let done = Reply { number: 0, value: 0 };
    assert!(table::same(&Ok(table.clone()), done, &table).is_ok());
    for wrong in [
        Table { quantities: 2, ..table.clone() },
        Table { hidden: 1, ..table.clone() },
        Table { words: vec![3, 3], ..table.clone() },
        Table { words: vec![3], ..table.clone() },
    ] {
        assert!(table::same(&Ok(wrong.clone()), done, &table).is_err(), "{wrong:?}");
    }
    let out = Reply { number: 9, value: 5 };
    let refusal = Refusal::NotCanonical { line: 5 };
    assert!(table::same(&Err(refusal), out, &table).is_ok());
    assert!(table::same(&Ok(table.clone()), out, &table).is_err());
    for wrong in [Refusal::NotCanonical { line: 4 }, Refusal::Malformed { line: 5 }, Refusal::Cancelling { line: 5 }] {
        assert!(table::same(&Err(wrong), out, &table).is_err(), "{wrong:?}");
    }
    assert!(refusal.to_string().starts_with("refused with 9 at line 5: "), "{refusal}");
}

#[test]
fn each_refusal_is_that_of_its_number_alone() {
    let each = |line| {
        [
            (1, Refusal::Size),
            (2, Refusal::Malformed { line }),
            (3, Refusal::OutOfLimit { line }),
            (4, Refusal::Cancelling { line }),
            (5, Refusal::NoAssignment),
            (6, Refusal::TooShort { needed: line }),
            (7, Refusal::Mismatch),
            (8, Refusal::ListSize),
            (9, Refusal::NotCanonical { line }),
        ]
    };
    for (number, refusal) in each(0) {
        for replied in 0..11 {
            let accepted = same_refusal(refusal, Reply { number: replied, value: 0 }).is_ok();
            assert_eq!(accepted, number == replied, "{refusal:?} for {replied}");
        }
    }
    for (number, refusal) in each(8) {
        assert!(same_refusal(refusal, Reply { number, value: 9 }).is_err(), "{refusal:?}");
    }
}
