//! Is the judge worth believing? It accepts hiding done by document 01's words, and refuses each of the traps.

mod wrong;

use judge::alike;
use judge::library::Library;
use judge::meaning::LIMIT;
use judge::run;
use wrong::{InTightKey, Trap, Wrong};

const SHEETS: u64 = 300;

/// Document 01, 'Finding an assignment'.
const FARTHEST: i64 = 1 << 62;

/// Each trap with what the failure has to say: that the judge stumbles over something else is not enough.
const TRAPS: [(Trap, &str); 49] = [
    (Trap::RoundsTowardZero, "key: "),
    (Trap::ForgetsLoneRules, "key: "),
    (Trap::KeepsLoneRules, "names a hidden quantity"),
    (Trap::DecidesOnHiddenOnly, "reply 0 with value 0, due 5"),
    (Trap::HidesFirstOnly, "key: least bound"),
    (Trap::EmptyKey, "key: least bound"),
    (Trap::SheetAsKey, "names a hidden quantity"),
    (Trap::AlwaysFive, "reply 5 with value 0, due 0"),
    (Trap::NeverFive, "reply 0 with value 0, due 5"),
    (Trap::HidesDownward, "key: place "),
    (Trap::LimitFirst, "reply 3 with value 0, due 6"),
    (Trap::LimitSkipsLast, "due 3"),
    (Trap::Limits { least: -LIMIT, most: LIMIT + 1 }, "due 3"),
    (Trap::Limits { least: -LIMIT - 1, most: LIMIT }, "due 3"),
    (Trap::Limits { least: -LIMIT, most: LIMIT - 1 }, "reply 3"),
    (Trap::Limits { least: 1 - LIMIT, most: LIMIT }, "reply 3"),
    (Trap::LeastWordPasses, "due 3"),
    (Trap::HiddenUntested, "due 3"),
    (Trap::Accepts(0), "reply 0 with value 0, due 1"),
    (Trap::Accepts(33), "reply 0 with value 0, due 1"),
    (Trap::Accepts(1 << 32), "reply 0 with value 0, due 1"),
    (Trap::Accepts(1 << 63), "reply 0 with value 0, due 1"),
    (Trap::NarrowsN, "due 1"),
    (Trap::AssignmentBeforeWorkspace, "assignment: reply 6"),
    (Trap::TableLengthAsNeeded, "reply 6"),
    (Trap::ValueBeside(0), "reply 0 with value 1"),
    (Trap::ValueBeside(1), "reply 1 with value 1"),
    (Trap::ValueBeside(3), "reply 3 with value 1"),
    (Trap::ValueBeside(5), "reply 5 with value 1"),
    (Trap::TableLost(1), "table: a word changed"),
    (Trap::TableLost(3), "table: a word changed"),
    (Trap::TableLost(5), "table: a word changed"),
    (Trap::TableLost(6), "table: a word changed"),
    (Trap::WorkspaceLost(1), "workspace: a word changed"),
    (Trap::WorkspaceLost(3), "workspace: a word changed"),
    (Trap::WorkspaceLost(6), "workspace: a word changed"),
    (Trap::ValuesLost(1), "values: a word changed"),
    (Trap::ValuesLost(3), "values: a word changed"),
    (Trap::ValuesLost(5), "values: a word changed"),
    (Trap::ValuesLost(6), "values: a word changed"),
    (Trap::WritesPastTable, "table: a word changed"),
    (Trap::WritesPastWorkspace, "workspace: a word changed"),
    (Trap::WritesPastValues, "values: a word changed"),
    (Trap::Zeros, "breaks"),
    (Trap::PutsFree(FARTHEST + 1), "is out of range"),
    (Trap::PutsFree(-FARTHEST - 1), "is out of range"),
    (Trap::OtherIntegersNextTime, "not as before: the assignment's words"),
    (Trap::MixesCalls, "at once: not as before: the "),
    (Trap::RefusesSecondCaller, "at once: not as before: "),
];

/// The same where the call for a tightest key alone falls into the trap.
const TIGHT_TRAPS: [(Trap, &str); 52] = [
    (Trap::PlainForTight, "tight key: tightened again: place "),
    (Trap::TightensHidden, "tight key: rule +1+2:5 names a hidden quantity"),
    (Trap::NeverStrengthens, "tight key: tightened again: place "),
    (Trap::StrengthensFirst, "tight key: tightened again: place "),
    (Trap::StrengthensOnly, "tight key: tightened again: place "),
    (Trap::PairsAllButLast, "tight key: tightened again: place "),
    (Trap::EmptiesPaired, "tight key: place "),
    (Trap::LeavesOut(LIMIT), "tight key: place "),
    (Trap::LeavesOut(1 << 31), "tight key: "),
    (Trap::LeavesOutLone, "tight key: tightened again: place "),
    (Trap::BringsToLimit, "tight key: place "),
    (Trap::OneAbove, "tight key: place 0: word 4, due 3"),
    (Trap::OneBelow, "tight key: place 0: word 2, due 3"),
    (Trap::BoundsAll, "tight key: tightened again: place "),
    (Trap::RoundsTowardZero, "tight key: "),
    (Trap::ForgetsLoneRules, "tight key: "),
    (Trap::KeepsLoneRules, "names a hidden quantity"),
    (Trap::DecidesOnHiddenOnly, "tight key: reply 0 with value 0, due 5"),
    (Trap::HidesFirstOnly, "tight key: place "),
    (Trap::EmptyKey, "tight key: place "),
    (Trap::SheetAsKey, "names a hidden quantity"),
    (Trap::AlwaysFive, "tight key: reply 5 with value 0, due 0"),
    (Trap::NeverFive, "tight key: reply 0 with value 0, due 5"),
    (Trap::LimitFirst, "tight key: reply 3 with value 0, due 6"),
    (Trap::LimitSkipsLast, "tight key: reply 0 with value 0, due 3"),
    (Trap::Limits { least: -LIMIT, most: LIMIT + 1 }, "due 3"),
    (Trap::Limits { least: -LIMIT - 1, most: LIMIT }, "due 3"),
    (Trap::Limits { least: -LIMIT, most: LIMIT - 1 }, "tight key: reply 3"),
    (Trap::Limits { least: 1 - LIMIT, most: LIMIT }, "tight key: reply 3"),
    (Trap::LeastWordPasses, "due 3"),
    (Trap::HiddenUntested, "due 3"),
    (Trap::Accepts(0), "tight key: reply 0 with value 0, due 1"),
    (Trap::Accepts(33), "tight key: reply 0 with value 0, due 1"),
    (Trap::Accepts(1 << 32), "tight key: reply 0 with value 0, due 1"),
    (Trap::Accepts(1 << 63), "tight key: reply 0 with value 0, due 1"),
    (Trap::NarrowsN, "due 1"),
    (Trap::TableLengthAsNeeded, "tight key: reply 6"),
    (Trap::ValueBeside(0), "tight key: reply 0 with value 1"),
    (Trap::ValueBeside(1), "tight key: reply 1 with value 1"),
    (Trap::ValueBeside(3), "reply 3 with value 1"),
    (Trap::ValueBeside(5), "tight key: reply 5 with value 1"),
    (Trap::TableLost(1), "table: a word changed"),
    (Trap::TableLost(3), "table: a word changed"),
    (Trap::TableLost(5), "table: a word changed"),
    (Trap::TableLost(6), "table: a word changed"),
    (Trap::WorkspaceLost(1), "workspace: a word changed"),
    (Trap::WorkspaceLost(3), "workspace: a word changed"),
    (Trap::WorkspaceLost(6), "workspace: a word changed"),
    (Trap::WritesPastTable, "table: a word changed"),
    (Trap::WritesPastWorkspace, "workspace: a word changed"),
    (Trap::MixesCalls, "at once: not as before: the tight key's words"),
    (Trap::RefusesSecondCaller, "at once: not as before: the tight key's "),
];

#[test]
fn the_documents_words_are_accepted() {
    let counts = run::all(&Wrong::new(Trap::Nothing), 1, SHEETS).unwrap_or_else(|failure| panic!("{failure}"));
    assert_eq!(counts.sheets as u64, SHEETS);
}

#[test]
fn the_farthest_integers_are_accepted() {
    for integer in [-FARTHEST, FARTHEST] {
        run::all(&Wrong::new(Trap::PutsFree(integer)), 1, SHEETS).unwrap_or_else(|failure| panic!("{failure}"));
    }
}

#[test]
fn each_trap_is_seen() {
    for (trap, seen_as) in TRAPS {
        seen(&Wrong::new(trap), trap, seen_as);
    }
}

#[test]
fn each_trap_in_the_tightest_key_is_seen() {
    for (trap, seen_as) in TIGHT_TRAPS {
        seen(&InTightKey::new(trap), trap, seen_as);
    }
}

#[test]
fn keys_that_do_not_go_by_the_meaning_are_seen() {
    let told = [(Trap::PlainForTight, "the same words are due"), (Trap::EmptyKey, "other words are due")];
    for (trap, seen_as) in told {
        let failure = alike::run::all(&InTightKey::new(trap), 1, SHEETS).err();
        let failure = failure.unwrap_or_else(|| panic!("{trap:?} goes unseen"));
        assert!(failure.contains(seen_as), "{trap:?} is seen as {failure}");
    }
}

fn seen(library: &dyn Library, trap: Trap, seen_as: &str) {
    let failure = run::all(library, 1, SHEETS).err().unwrap_or_else(|| panic!("{trap:?} goes unseen"));
    assert!(failure.contains(seen_as), "{trap:?} is seen as {failure}");
}
