//! Is the judge of bank reading worth believing? It accepts rules compared by the formula of places, and refuses each of
//! the traps.

mod wrong_bank;

use judge::banking::{changes, holds, inputs, run};
use judge::meaning::{size, MOST_QUANTITIES};
use judge::random::Random;
use wrong_bank::{Trap, Wrong};

const SHEETS: u64 = 1_000;

/// Each trap with what the judge says of the first failure: that it stumbles over something else is not enough.
const TRAPS: [(Trap, &str); 72] = [
    // how a rule is spelled
    (Trap::DoubledAccepted, "reply 0 with value 0, due 9 with value 4"),
    (Trap::DoubledByPlace, "reply 0 with value 0, due 9 with value 4"),
    (Trap::DoubledPlus, "reply 2 with value 20, due 9 with value 4"),
    (Trap::HigherFirstAccepted, "reply 9 with value 6, due 9 with value 5"),
    (Trap::HigherFirstBySigns, "reply 9 with value 6, due 9 with value 5"),
    (Trap::SignsCompared, "reply 9 with value 10, due 0 with value 0"),
    (Trap::NumeralsCompared, "reply 9 with value 8, due 0 with value 0"),
    (Trap::FirstInAnyForm, "reply 0 with value 0, due 9 with value 4"),
    // the order of rules
    (Trap::AnyOrder, "reply 0 with value 0, due 9 with value 21"),
    (Trap::AfterFirst, "reply 0 with value 0, due 9 with value 21"),
    (Trap::AfterLastButOne, "reply 0 with value 0, due 9 with value 21"),
    (Trap::EqualAccepted, "reply 0 with value 0, due 9 with value 30"),
    (Trap::EqualBoundAccepted, "reply 2 with value 16, due 9 with value 10"),
    (Trap::IdleAccepted, "reply 2 with value 77, due 9 with value 26"),
    (Trap::SmallerAccepted, "reply 0 with value 0, due 9 with value 30"),
    (Trap::Backward, "reply 9 with value 5, due 0 with value 0"),
    (Trap::ByQuantities, "reply 9 with value 7, due 0 with value 0"),
    (Trap::ByHigher, "reply 0 with value 0, due 9 with value 21"),
    (Trap::BlocksOnce, "reply 9 with value 6, due 0 with value 0"),
    (Trap::ByBytes, "reply 9 with value 5, due 0 with value 0"),
    (Trap::LoneLast, "reply 9 with value 7, due 0 with value 0"),
    (Trap::MinusFirst, "reply 9 with value 6, due 0 with value 0"),
    (Trap::LowerSignLast, "reply 9 with value 10, due 0 with value 0"),
    (Trap::NarrowPlaces, "reply 9 with value 8, due 0 with value 0"),
    (Trap::EverySecond, "reply 9 with value 9, due 9 with value 6"),
    (Trap::LastUnchecked, "reply 9 with value 21, but to the first 18 rules alone 0 with value 0, due 9 with value 21"),
    (Trap::FirstPlaceRefused, "reply 9 with value 4, due 0 with value 0"),
    (Trap::NeighbourRefused, "reply 9 with value 5, due 0 with value 0"),
    (Trap::NeighbourAlone, "reply 9 with value 7, due 0 with value 0"),
    // refusals
    (Trap::Ordinary, "reply 0 with value 0, due 9 with value 21"),
    (Trap::AcceptsAll, "reply 0 with value 0, due 2 with value 22"),
    (Trap::RefusesAll, "reply 9 with value 4, due 0 with value 0"),
    (Trap::Before(2), "reply 9 with value 4, due 2 with value 4"),
    (Trap::Before(3), "reply 9 with value 49, due 3 with value 49"),
    (Trap::Before(4), "reply 9 with value 4, due 4 with value 4"),
    (Trap::AfterAll, "reply 2 with value 20, due 9 with value 4"),
    (Trap::After("rule 2"), "reply 2 with value 5, due 9 with value 4"),
    (Trap::After("rule 3"), "reply 3 with value 21, due 9 with value 4"),
    (Trap::After("rule 4"), "reply 4 with value 1004, due 9 with value 5"),
    (Trap::After("2 missing"), "reply 2 with value 77, due 9 with value 26"),
    (Trap::After("2 unended"), "reply 2 with value 35, due 9 with value 19"),
    (Trap::After("2 behind"), "reply 2 with value 20, due 9 with value 4"),
    (Trap::After("6"), "reply 6 with value 2048, due 9 with value 6"),
    (Trap::Earliest, "reply 9 with value 7, due 4 with value 4"),
    (Trap::LastOut, "reply 9 with value 18, due 9 with value 6"),
    (Trap::Told(2), "reply 2 with value 21, due 9 with value 21"),
    (Trap::Told(4), "reply 4 with value 21, due 9 with value 21"),
    (Trap::LineMoved(1), "reply 9 with value 22, due 9 with value 21"),
    (Trap::LineMoved(-1), "reply 9 with value 20, due 9 with value 21"),
    (Trap::RuleNumber, "reply 9 with value 18, due 9 with value 21"),
    (Trap::NoLine, "reply 9 with value 0, due 9 with value 21"),
    (Trap::ScriptLimit, "reply 0 with value 0, due 3 with value 19"),
    (Trap::ShortIsSize, "reply 1 with value 0, due 6 with value 450"),
    (Trap::RoomForAll, "reply 6 with value 2048, due 6 with value 450"),
    (Trap::ValueBeside(0), "reply 0 with value 1, due 0 with value 0"),
    (Trap::ValueBeside(1), "reply 1 with value 1, due 1 with value 0"),
    // memory
    (Trap::FilledUntil, "table: a word changed that is not of its first 0"),
    (Trap::Emptied, "table: a word changed that is not of its first 0"),
    (Trap::TableLost(1), "table: a word changed that is not of its first 0"),
    (Trap::TableLost(2), "table: a word changed that is not of its first 0"),
    (Trap::TableLost(3), "table: a word changed that is not of its first 0"),
    (Trap::TableLost(4), "table: a word changed that is not of its first 0"),
    (Trap::TableLost(6), "table: a word changed that is not of its first 0"),
    (Trap::TableLost(9), "table: a word changed that is not of its first 0"),
    (Trap::QuantitiesLost(9), "Header"),
    (Trap::HiddenLost(9), "Header"),
    (Trap::HiddenLost(6), "Header"),
    (Trap::LeavesPlaces, "place 0: word 7299561180581404206, due 9223372036854775807"),
    (Trap::WritesPastTable, "table: a word changed that is not of its first 32"),
    (Trap::LeavesQuantities, "Header"),
    (Trap::LeavesHidden, "Header"),
    (Trap::LastLost, "place 31: word 9223372036854775807, due -1"),
];

#[test]
fn places_compared_by_their_formula_are_accepted() {
    run::all(&Wrong::new(Trap::Nothing), 1, SHEETS).unwrap_or_else(|failure| panic!("{failure}"));
}

#[test]
fn a_run_that_meets_nothing_fails() {
    let counts = run::random(&Wrong::new(Trap::Nothing), 1, 0).unwrap_or_else(|failure| panic!("{failure}"));
    assert_eq!(counts.all_met(), Err("no bank sheet of 1 quantities was read".into()));
}

#[test]
fn each_trap_is_seen() {
    for (trap, said) in TRAPS {
        assert_eq!(seen(trap), said, "{trap:?}");
    }
}

/// What is to hold between bank reading and the other calls shows these by itself: nothing says there what is due.
#[test]
fn what_holds_between_calls_shows_much_by_itself() {
    let seen = [
        (Trap::DoubledAccepted, "read by the bank, though the writer makes another text of it"),
        (Trap::HigherFirstAccepted, "read by the bank, though the writer makes another text of it"),
        (Trap::AnyOrder, "read by the bank, though the writer makes another text of it"),
        (Trap::AfterFirst, "read by the bank, though the writer makes another text of it"),
        (Trap::EqualAccepted, "read by the bank, though the writer makes another text of it"),
        (Trap::ByQuantities, "reply 9 with value 7 to the table's own text"),
        (Trap::Ordinary, "read by the bank, though the writer makes another text of it"),
        (Trap::AcceptsAll, "reply 0 with value 0, where ordinary reading replies 2 with value 23"),
        (Trap::RefusesAll, "reply 9 with value 4 to the table's own text"),
        (Trap::Before(2), "reply 9 with value 5, where ordinary reading replies 2 with value 5"),
        (Trap::Before(3), "reply 9 with value 4, where ordinary reading replies 3 with value 4"),
        (Trap::Before(4), "reply 9 with value 4, where ordinary reading replies 4 with value 4"),
        (Trap::AfterAll, "reply 2 with value 71, but to the first 67 rules alone 9 with value 70, due 0 with value 0"),
        (Trap::Earliest, "reply 9 with value 18, where ordinary reading replies 2 with value 11"),
        (Trap::LineMoved(1), "reply 9 with value 8, but to the first 4 rules alone 9 with value 8, due 0 with value 0"),
        (
            Trap::LineMoved(-1),
            "reply 9 with value 6, but to the first 3 rules alone 0 with value 0, due 9 with value 6",
        ),
        (Trap::LastLost, "of the table's own text: place 31: word 9223372036854775807, due -1"),
    ];
    for (trap, said) in seen {
        assert_eq!(found(&Wrong::new(trap)), Err(said.into()), "{trap:?}");
    }
    assert_eq!(found(&Wrong::new(Trap::Nothing)), Ok(()));
}

/// What holds of the first tables and of what is made of them, or the first failure.
fn found(library: &Wrong) -> Result<(), String> {
    for number in 0..SHEETS / 4 {
        let mut random = Random::new(1, number);
        let sheet = inputs::sheet(&mut random);
        holds::there_and_back(library, &sheet)?;
        let changed = changes::drawn(&sheet, &mut random).text;
        for text in [changed, inputs::text(&sheet, &mut random)] {
            holds::between_calls(library, &text, size(MOST_QUANTITIES))?;
        }
    }
    Ok(())
}

/// What is found, and by what, depends on the call before, which may be the other thread's.
#[test]
fn a_place_that_is_kept_is_seen() {
    let failure = failure(Trap::PlaceKept);
    assert!(failure.contains("9 with value 4"), "{failure}");
}

/// Which of the calls meet is not known.
#[test]
fn a_refused_second_caller_is_seen() {
    let failure = failure(Trap::RefusesSecondCaller);
    assert!(failure.contains("1 with value 0"), "{failure}");
}

/// The first failure.
fn failure(trap: Trap) -> String {
    run::random(&Wrong::new(trap), 1, SHEETS).err().unwrap_or_else(|| panic!("{trap:?} goes unseen"))
}

/// What the judge says of the first failure, behind the sheet's number and the words lent. Of a header it is left out what
/// it holds, which may be anything.
fn seen(trap: Trap) -> String {
    let failure = failure(trap);
    let line = failure.lines().next().unwrap_or_default();
    let (_, said) = line.split_once(" words: ").unwrap_or_else(|| panic!("{failure}"));
    said.split(" {").next().unwrap_or_default().to_string()
}
