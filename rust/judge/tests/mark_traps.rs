//! Is the judge of marking worth believing? It accepts its own verdicts, and refuses each of the traps.

mod wrong_mark;

use judge::library::{EQUAL, LOOSE, MISMATCH, TIGHT};
use judge::marking::run;
use wrong_mark::{Trap, Wrong};

const PAIRS: u64 = 2_000;

/// Each trap with the number that it gives first where another is due, and that number: that the judge stumbles over
/// something else is not enough.
const TRAPS: [(Trap, u32, u32); 49] = [
    (Trap::Always(EQUAL), EQUAL, LOOSE),
    (Trap::Always(LOOSE), LOOSE, EQUAL),
    (Trap::Always(TIGHT), TIGHT, LOOSE),
    (Trap::TightFirst, TIGHT, LOOSE),
    (Trap::Exchanged, TIGHT, LOOSE),
    (Trap::SheetForKey, LOOSE, EQUAL),
    (Trap::VisibleRules, EQUAL, LOOSE),
    (Trap::HidesFirstOnly, EQUAL, LOOSE),
    (Trap::Words, LOOSE, TIGHT),
    (Trap::LoneTerms, EQUAL, TIGHT),
    (Trap::LastShown, LOOSE, EQUAL),
    (Trap::KeyWithinLimit, EQUAL, LOOSE),
    (Trap::OppositeAtBound, LOOSE, TIGHT),
    (Trap::OppositePastBound, TIGHT, LOOSE),
    (Trap::TightAtBound, TIGHT, EQUAL),
    (Trap::TightPastBound, EQUAL, TIGHT),
    (Trap::Fractions, LOOSE, EQUAL),
    (Trap::FractionsOfTables, LOOSE, EQUAL),
    (Trap::HalvedTowardZero, TIGHT, EQUAL),
    (Trap::NotHalved, LOOSE, EQUAL),
    (Trap::KeepsLater, EQUAL, LOOSE),
    // a sheet without an assignment is loose or equal, by the script
    (Trap::NoSheet(5), 5, LOOSE),
    (Trap::NoSheet(EQUAL), EQUAL, LOOSE),
    (Trap::NoSheet(LOOSE), LOOSE, EQUAL),
    (Trap::NoSheet(TIGHT), TIGHT, LOOSE),
    // a script without one is tight or equal, by the sheet
    (Trap::NoScript(5), 5, EQUAL),
    (Trap::NoScript(EQUAL), EQUAL, TIGHT),
    (Trap::NoScript(LOOSE), LOOSE, EQUAL),
    (Trap::NoScript(TIGHT), TIGHT, EQUAL),
    (Trap::EqualWhenHidden, EQUAL, LOOSE),
    // of both papers' refusals the sheet's is due
    (Trap::ScriptFirst, 1, 2),
    (Trap::SmallerFirst, 1, 2),
    // 7 is due behind the other refusals and before a verdict
    (Trap::HeaderFirst, MISMATCH, 3),
    (Trap::VerdictFirst, LOOSE, MISMATCH),
    (Trap::PassesN, LOOSE, MISMATCH),
    (Trap::PassesHidden, TIGHT, MISMATCH),
    (Trap::PassesRule, TIGHT, MISMATCH),
    (Trap::PassesDoubledRule, LOOSE, MISMATCH),
    // 3 is due past a script's own limit, and not before
    (Trap::SheetAsScript, MISMATCH, 3),
    (Trap::ScriptAsSheet, 3, EQUAL),
    (Trap::LimitBySheet, 3, MISMATCH),
    (Trap::LimitByN, EQUAL, 3),
    (Trap::LimitDoubledOnce, 3, EQUAL),
    (Trap::LimitByLast, EQUAL, 3),
    (Trap::LimitIn32Bits, 3, MISMATCH),
    (Trap::LimitMoved(1), MISMATCH, 3),
    (Trap::LimitMoved(-1), 3, EQUAL),
    (Trap::LimitHalved, MISMATCH, 3),
    (Trap::NegativeAsSheet, 3, EQUAL),
];

#[test]
fn the_judges_own_verdicts_are_accepted() {
    run::random(&Wrong::new(Trap::Nothing), 1, PAIRS).unwrap_or_else(|failure| panic!("{failure}"));
}

#[test]
fn a_run_that_meets_nothing_fails() {
    let counts = run::random(&Wrong::new(Trap::Nothing), 1, 0).unwrap_or_else(|failure| panic!("{failure}"));
    assert_eq!(counts.all_met(), Err("1 was never due".into()));
}

#[test]
fn each_trap_is_seen() {
    for (trap, number, due) in TRAPS {
        assert_eq!(seen(trap, PAIRS), format!("number {number}, due {due}"), "{trap:?}");
    }
}

/// A single pair is marked on one thread alone, so that the call before is known: a verdict on the pair as it is.
#[test]
fn a_number_kept_from_the_call_before_is_seen() {
    assert_eq!(seen(Trap::Remembers, 1), "number 101, due 7");
}

/// Which of the calls meet is not known. Alone a caller is answered rightly.
#[test]
fn a_refused_second_caller_is_seen() {
    let failure = seen(Trap::RefusesSecondCaller, PAIRS);
    assert!(failure.starts_with("number 1, due "), "{failure}");
    run::random(&Wrong::new(Trap::RefusesSecondCaller), 1, 1).unwrap_or_else(|failure| panic!("{failure}"));
}

/// What the judge says of the first failure, behind the pair's number and before its texts.
fn seen(trap: Trap, pairs: u64) -> String {
    let failure = run::random(&Wrong::new(trap), 1, pairs).err().unwrap_or_else(|| panic!("{trap:?} goes unseen"));
    let (line, _) = failure.split_once("\nsheet, ").unwrap_or_else(|| panic!("{failure}"));
    let (_, said) = line.split_once(": ").unwrap_or_else(|| panic!("{failure}"));
    said.to_string()
}
