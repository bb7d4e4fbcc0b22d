//! Is the judge of questions to one sheet worth believing? It accepts answers by shortest paths, and refuses each of the traps.

mod wrong_asking;

use judge::asking::run;
use wrong_asking::{Trap, Wrong};

const LISTS: u64 = 1_000;

/// Each trap with what the judge says of the first failure: that it stumbles over something else is not enough.
const TRAPS: [(Trap, &str); 81] = [
    // the answer to a question
    (Trap::Always(true), "question 1 of 40: yes, due no"),
    (Trap::Always(false), "question 1 of 1: no, due yes"),
    (Trap::Below, "question 36 of 40: no, due yes"),
    (Trap::OneBelow, "question 19 of 40: yes, due no"),
    (Trap::OwnWord, "question 1 of 1: no, due yes"),
    (Trap::Hides(0b01), "question 2 of 40: no, due yes"),
    (Trap::Hides(0b10), "question 5 of 63: no, due yes"),
    (Trap::WordWithinLimit, "question 48 of 64: yes, due no"),
    (Trap::UnboundedIsYes, "question 1 of 40: yes, due no"),
    (Trap::HalvesUp, "question 10 of 39: yes, due no"),
    (Trap::HalvesTowardZero, "question 32 of 39: yes, due no"),
    (Trap::NotHalved, "question 10 of 39: yes, due no"),
    (Trap::HalvesAll, "question 1 of 1: no, due yes"),
    (Trap::DoubledIsNo, "question 3 of 39: no, due yes"),
    (Trap::SecondIgnored, "question 38 of 39: yes, due no"),
    (Trap::FirstIgnored, "question 2 of 40: no, due yes"),
    (Trap::SignsStay, "question 9 of 39: no, due yes"),
    (Trap::HigherFirstIsNo, "question 2 of 40: no, due yes"),
    // the list
    (Trap::FromLast, "question 2 of 40: no, due yes"),
    (Trap::FromTop, "question 1 of 1: no, due yes"),
    (Trap::FromOne, "question 1 of 1: no, due yes"),
    (Trap::FirstForAll, "question 2 of 40: no, due yes"),
    (Trap::LastBitLost, "question 64 of 64: no, due yes"),
    (Trap::NarrowAnswers, "question 36 of 40: no, due yes"),
    (Trap::BitsAbove, "bit 1 is set, which no question has"),
    (Trap::OldBits, "bit 2 is set, which no question has"),
    // refusals
    (Trap::NeverFive, "reply 0 with value 0, due 5 with value 0"),
    (Trap::Most(63), "reply 8 with value 0, due 5 with value 0"),
    (Trap::Most(65), "reply 0 with value 0, due 8 with value 0"),
    (Trap::Most(1), "reply 8 with value 0, due 5 with value 0"),
    (Trap::NoneIsDone, "reply 6 with value 18, due 8 with value 0"),
    (Trap::NarrowCount, "reply 3 with value 0, due 8 with value 0"),
    (Trap::WholeOnly, "reply 8 with value 0, due 5 with value 0"),
    (Trap::PartIsQuestion, "reply 3 with value 0, due 5 with value 0"),
    (Trap::LooksBehind, "reply 3 with value 0, due 5 with value 0"),
    (Trap::LastUnchecked, "reply 5 with value 0, due 3 with value 0"),
    (Trap::FirstChecked, "reply 5 with value 0, due 3 with value 0"),
    (Trap::FirstAtFault, "reply 4 with value 0, due 3 with value 0"),
    (Trap::BoundMoved(1), "reply 0 with value 0, due 3 with value 0"),
    (Trap::BoundMoved(-1), "reply 3 with value 0, due 5 with value 0"),
    (Trap::HalvedChecked, "reply 0 with value 0, due 3 with value 0"),
    (Trap::QuantityMoved(1), "reply 4 with value 0, due 3 with value 0"),
    (Trap::QuantityMoved(-1), "reply 3 with value 0, due 5 with value 0"),
    (Trap::MinusUnchecked, "reply 5 with value 0, due 3 with value 0"),
    (Trap::SecondUnchecked, "reply 5 with value 0, due 3 with value 0"),
    (Trap::NarrowQuantity, "reply 5 with value 0, due 3 with value 0"),
    (Trap::NoFirst, "reply 0 with value 0, due 3 with value 0"),
    (Trap::NeedsSecond, "reply 3 with value 0, due 5 with value 0"),
    (Trap::PassesCancelled, "reply 0 with value 0, due 4 with value 0"),
    (Trap::DoubledCancels, "reply 4 with value 0, due 5 with value 0"),
    (Trap::TableUnchecked, "reply 5 with value 0, due 3 with value 0"),
    (Trap::TableBehind, "reply 3 with value 0, due 5 with value 0"),
    // the order of refusals
    (Trap::ListFirst, "reply 8 with value 0, due 1 with value 0"),
    (Trap::LengthBeforeList, "reply 6 with value 18, due 8 with value 0"),
    (Trap::LimitBeforeLength, "reply 3 with value 0, due 6 with value 1568"),
    (Trap::CancelledFirst, "reply 4 with value 0, due 3 with value 0"),
    (Trap::AssignmentFirst, "reply 5 with value 0, due 3 with value 0"),
    (Trap::AssignmentBeforeCancelled, "reply 5 with value 0, due 4 with value 0"),
    (Trap::WorkspaceOfMarking, "reply 6 with value 36, due 5 with value 0"),
    (Trap::ListAsNeeded, "reply 6 with value 131, due 6 with value 1568"),
    (Trap::Accepts(0), "reply 0 with value 0, due 1 with value 0"),
    (Trap::Accepts(33), "reply 0 with value 0, due 1 with value 0"),
    (Trap::ValueBeside(0), "reply 0 with value 1, due 0 with value 0"),
    (Trap::ValueBeside(1), "reply 1 with value 1, due 1 with value 0"),
    (Trap::ValueBeside(3), "reply 3 with value 1, due 3 with value 0"),
    (Trap::ValueBeside(4), "reply 4 with value 1, due 4 with value 0"),
    (Trap::ValueBeside(5), "reply 5 with value 1, due 5 with value 0"),
    (Trap::ValueBeside(8), "reply 8 with value 1, due 8 with value 0"),
    // memory
    (Trap::AnswersLost(1), "the answers are changed, where nothing is due"),
    (Trap::AnswersLost(3), "the answers are changed, where nothing is due"),
    (Trap::AnswersLost(4), "the answers are changed, where nothing is due"),
    (Trap::AnswersLost(5), "the answers are changed, where nothing is due"),
    (Trap::AnswersLost(6), "the answers are changed, where nothing is due"),
    (Trap::AnswersLost(8), "the answers are changed, where nothing is due"),
    (Trap::WorkspaceLost(3), "workspace: a word changed that is not of its first 0"),
    (Trap::WorkspaceLost(4), "workspace: a word changed that is not of its first 0"),
    (Trap::WorkspaceLost(6), "workspace: a word changed that is not of its first 0"),
    (Trap::WorkspaceLost(8), "workspace: a word changed that is not of its first 0"),
    (Trap::WritesPastWorkspace, "workspace: a word changed that is not of its first 1922"),
    (Trap::WorkspaceLeft, "workspace: place 0: word 9050725429204581076, due 1489285417"),
    (Trap::WorkspaceIsSheet, "workspace: place 0: word 9223372036854775807, due 1489285417"),
];

#[test]
fn answers_by_shortest_paths_are_accepted() {
    run::all(&Wrong(Trap::Nothing), 1, LISTS).unwrap_or_else(|failure| panic!("{failure}"));
}

#[test]
fn a_run_that_meets_nothing_fails() {
    let counts = run::random(&Wrong(Trap::Nothing), 1, 0).unwrap_or_else(|failure| panic!("{failure}"));
    assert_eq!(counts.all_met(), Err("no list was of the kind '1 n'".into()));
}

#[test]
fn each_trap_is_seen() {
    for (trap, said) in TRAPS {
        assert_eq!(seen(trap), said, "{trap:?}");
    }
}

/// What the judge says of the first failure, behind the list's number and before what is given.
fn seen(trap: Trap) -> String {
    let failure = run::random(&Wrong(trap), 1, LISTS).err().unwrap_or_else(|| panic!("{trap:?} goes unseen"));
    let (line, _) = failure.split_once("\nn=").unwrap_or_else(|| panic!("{failure}"));
    let (_, said) = line.split_once(": ").unwrap_or_else(|| panic!("{failure}"));
    said.to_string()
}
