//! Is the judge of texts worth believing? It accepts its own reader and writer, and refuses each of the traps.

mod wrong_text;

use judge::text::run;
use wrong_text::{Trap, Wrong};

const TEXTS: u64 = 2_000;

/// Each trap with what the judge says of the first failure: that it stumbles over something else is not enough.
const TRAPS: [(Trap, &str); 104] = [
    // a number, a sign or an end that may not be there
    (Trap::LeadingZeros, "reply 0 with value 0, due 2 with value 14"),
    (Trap::Takes(":-0\n", ":0\n"), "reply 4 with value 5, due 2 with value 5"),
    (Trap::Takes(":+", ":"), "reply 3 with value 5, due 2 with value 5"),
    (Trap::Takes("quantities=+", "quantities="), "reply 2 with value 3, due 2 with value 1"),
    (Trap::Takes("rules=+", "rules="), "reply 3 with value 57, due 2 with value 3"),
    (Trap::Takes(",+", ","), "reply 3 with value 2, due 2 with value 2"),
    (Trap::Takes(" ", ""), "reply 3 with value 8, due 2 with value 8"),
    (Trap::Takes("\r\n", "\n"), "reply 0 with value 0, due 2 with value 3"),
    (Trap::Takes("\n\n", "\n"), "reply 0 with value 0, due 2 with value 2"),
    (Trap::Takes(",\n", "\n"), "reply 2 with value 3, due 2 with value 2"),
    (Trap::Takes(",,", ","), "reply 2 with value 5, due 2 with value 2"),
    (Trap::Takes("==", "="), "reply 2 with value 4, due 2 with value 2"),
    (Trap::Takes("RULE=", "rule="), "reply 3 with value 4, due 2 with value 4"),
    (Trap::EndsLastLine, "reply 2 with value 6, due 2 with value 5"),
    (Trap::SortsList, "reply 3 with value 2, due 2 with value 2"),
    (Trap::PassesBehind, "reply 0 with value 0, due 2 with value 34"),
    // numbers at their limits and past them
    (Trap::Takes("quantities=33\n", "quantities=32\n"), "reply 2 with value 7, due 3 with value 1"),
    (Trap::Takes("quantities=32\n", "quantities=33\n"), "reply 3 with value 1, due 0 with value 0"),
    (Trap::Takes("quantities=0\n", "quantities=00\n"), "reply 2 with value 1, due 3 with value 1"),
    (Trap::Takes("hidden=0\n", "hidden=\n"), "reply 2 with value 6, due 3 with value 2"),
    (Trap::Takes("rules=2049\n", "rules=2048\n"), "reply 2 with value 7, due 3 with value 3"),
    (Trap::Takes("rules=2048\n", "rules=2049\n"), "reply 3 with value 3, due 0 with value 0"),
    (Trap::Takes(":1000000001\n", ":1000000000\n"), "reply 2 with value 14, due 3 with value 11"),
    (Trap::Takes(":1000000000\n", ":1000000001\n"), "reply 3 with value 11, due 0 with value 0"),
    (Trap::Takes(":-1000000001\n", ":-1000000000\n"), "reply 0 with value 0, due 3 with value 4"),
    (Trap::Takes(":-1000000000\n", ":-1000000001\n"), "reply 3 with value 9, due 0 with value 0"),
    (Trap::Takes("+0", "+00"), "reply 2 with value 4, due 3 with value 4"),
    (Trap::Takes("-0", "-00"), "reply 2 with value 4, due 3 with value 4"),
    (Trap::LimitOnHalf, "reply 0 with value 0, due 3 with value 11"),
    (Trap::CapsList, "reply 2 with value 2, due 3 with value 2"),
    (Trap::Wraps(32), "reply 2 with value 2, due 3 with value 2"),
    (Trap::Wraps(64), "reply 2 with value 2, due 3 with value 2"),
    // order and lines
    (Trap::RefusesAll, "reply 2 with value 1, due 0 with value 0"),
    (Trap::LimitBeforeForm, "reply 3 with value 2, due 2 with value 2"),
    (Trap::CancelsBeforeLimit, "reply 4 with value 4, due 3 with value 4"),
    (Trap::CancelsBeforeForm, "reply 4 with value 4, due 2 with value 4"),
    (Trap::LimitsByMost, "reply 0 with value 0, due 3 with value 2"),
    (Trap::SecondUnlimited, "reply 0 with value 0, due 3 with value 4"),
    (Trap::PassesCancelling, "reply 0 with value 0, due 4 with value 4"),
    (Trap::LinesFromZero, "reply 2 with value 1, due 2 with value 2"),
    (Trap::LineBefore("2 missing"), "reply 2 with value 0, due 2 with value 1"),
    (Trap::LineBefore("2 unended"), "reply 2 with value 0, due 2 with value 1"),
    (Trap::LineBefore("2 behind"), "reply 2 with value 33, due 2 with value 34"),
    (Trap::LineBefore("rule 4"), "reply 4 with value 3, due 4 with value 4"),
    (Trap::MostBytes(65_535), "reply 1 with value 0, due 2 with value 3"),
    (Trap::MostBytes(65_537), "reply 2 with value 2, due 1 with value 0"),
    (Trap::TableFirst, "reply 6 with value 2048, due 2 with value 2"),
    (Trap::ShortIsSize, "reply 1 with value 0, due 6 with value 1922"),
    (Trap::LentWords, "reply 6 with value 0, due 6 with value 1922"),
    (Trap::RoomForAll, "reply 6 with value 2048, due 6 with value 1922"),
    // what a reading leaves
    (Trap::NotHalved, "place 1800: word 999999999, due 499999999"),
    (Trap::HalvedTowardZero, "place 128: word 0, due -1"),
    (Trap::KeepsLarger, "place 1800: word 500000000, due 499999999"),
    (Trap::KeepsLater, "place 1800: word 500000000, due 499999999"),
    (Trap::SignsStay, "place 481: word 9223372036854775807, due 9"),
    (Trap::LeavesPlaces, "place 0: word -885686659684357433, due 9223372036854775807"),
    (Trap::LosesLastHidden, "Header"),
    (Trap::LeavesQuantities, "Header"),
    (Trap::TableLost(1), "table: a word changed that is not of its first 0"),
    (Trap::TableLost(2), "table: a word changed that is not of its first 0"),
    (Trap::TableLost(3), "table: a word changed that is not of its first 0"),
    (Trap::TableLost(4), "table: a word changed that is not of its first 0"),
    (Trap::TableLost(6), "table: a word changed that is not of its first 0"),
    (Trap::QuantitiesLost(1), "Header"),
    (Trap::QuantitiesLost(2), "Header"),
    (Trap::QuantitiesLost(3), "Header"),
    (Trap::QuantitiesLost(4), "Header"),
    (Trap::QuantitiesLost(6), "Header"),
    (Trap::HiddenLost(2), "Header"),
    (Trap::HiddenLost(6), "Header"),
    (Trap::WritesPastTable, "table: a word changed that is not of its first 2048"),
    // what is written
    (Trap::Prints("-9223372036854775807", "-9223372036854775808"), "writing: byte 786: '7', due '8'"),
    (Trap::Prints(":+", ":"), "writing: reply 0 with value 170, due 0 with value 167"),
    (Trap::Prints(", ", ","), "writing: reply 0 with value 198, due 0 with value 167"),
    (Trap::Prints("\r\n", "\n"), "writing: reply 0 with value 173, due 0 with value 167"),
    (Trap::HigherFirst, "writing: byte 74: '4', due '2'"),
    (Trap::RulesBackward, "writing: byte 123: '2', due '1'"),
    (Trap::ListBackward, "writing: byte 21: '3', due '1'"),
    (Trap::SkipsFirstPlace, "writing: reply 0 with value 29, due 0 with value 49"),
    (Trap::SkipsLastPlace, "writing: reply 0 with value 854, due 0 with value 868"),
    (Trap::CountsPlaces, "writing: reply 0 with value 170, due 0 with value 167"),
    (Trap::CountsOneMore, "writing: byte 114: '4', due '3'"),
    (Trap::SkipsPastLimit, "writing: reply 0 with value 359, due 0 with value 868"),
    // refusals of the writer
    (Trap::RefusesPastLimit, "writing: reply 3 with value 0, due 0 with value 868"),
    (Trap::RefusesLongText, "writing: reply 1 with value 0, due 0 with value 66344"),
    (Trap::HiddenBeforeSize, "writing: reply 3 with value 0, due 1 with value 0"),
    (Trap::ShortBeforeHidden, "writing: reply 6 with value 50, due 3 with value 0"),
    (Trap::PassesHidden, "writing: reply 6 with value 50, due 3 with value 0"),
    (Trap::ShiftsByBits, "writing: reply 3 with value 0, due 0 with value 167"),
    (Trap::Accepts(0), "writing: reply 0 with value 47, due 1 with value 0"),
    (Trap::Accepts(33), "writing: reply 0 with value 29, due 1 with value 0"),
    (Trap::NarrowsN, "writing: reply 0 with value 46, due 1 with value 0"),
    (Trap::PassesShortTable, "writing: reply 6 with value 534, due 1 with value 0"),
    (Trap::NeedsOneMore, "writing: reply 6 with value 168, due 0 with value 167"),
    (Trap::LentBytes, "writing: reply 6 with value 631, due 6 with value 632"),
    (Trap::OutputLost(1), "writing: output: a word changed that is not of its first 0"),
    (Trap::OutputLost(3), "writing: output: a word changed that is not of its first 0"),
    (Trap::OutputLost(6), "writing: output: a word changed that is not of its first 0"),
    (Trap::WritesPart, "writing: output: a word changed that is not of its first 0"),
    (Trap::WritesPastText, "writing: output: a word changed that is not of its first 49"),
    (Trap::NoLength, "writing: reply 0 with value 0, due 0 with value 167"),
    // both calls
    (Trap::ValueBeside(0), "reply 0 with value 1, due 0 with value 0"),
    (Trap::ValueBeside(1), "writing: reply 1 with value 1, due 1 with value 0"),
    (Trap::ValueBeside(3), "reply 3 with value 1, due 3 with value 4"),
];

#[test]
fn the_judges_own_reader_and_writer_are_accepted() {
    let judged = run::random(&Wrong::new(Trap::Nothing), 1, TEXTS).and_then(|counts| counts.all_kinds_met());
    judged.unwrap_or_else(|failure| panic!("{failure}"));
}

#[test]
fn each_trap_is_seen() {
    for (trap, said) in TRAPS {
        assert_eq!(seen(trap), said, "{trap:?}");
    }
}

/// Which of the calls meet is not known.
#[test]
fn a_refused_second_caller_is_seen() {
    let said = seen(Trap::RefusesSecondCaller);
    let said = said.strip_prefix("writing: ").unwrap_or(&said);
    assert!(said.starts_with("reply 1 with value 0, due "), "{said}");
}

/// What the judge says of the first failure, without the text's number and the words lent. Of a header it is left out what
/// it holds, which may be anything.
fn seen(trap: Trap) -> String {
    let failure = run::random(&Wrong::new(trap), 1, TEXTS).err().unwrap_or_else(|| panic!("{trap:?} goes unseen"));
    let line = failure.lines().next().unwrap_or_default();
    let said = match (line.find("writing: "), line.split_once(" words: ")) {
        (Some(writing), _) => &line[writing..],
        (None, Some((_, reading))) => reading,
        (None, None) => panic!("{failure}"),
    };
    said.split(" {").next().unwrap_or_default().to_string()
}
