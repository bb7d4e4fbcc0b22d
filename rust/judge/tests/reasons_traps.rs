//! Is the judge of marking with reasons worth believing? It accepts the plain marker, and refuses each of the traps.

mod wrong_reasons;

use judge::marking::run;
use wrong_reasons::{Trap, Wrong};

const PAIRS: u64 = 2_000;

/// Each trap with what the judge says of the first failure: that it stumbles over something else is not enough.
const TRAPS: [(Trap, &str); 39] = [
    // the paper
    (Trap::PapersExchanged, "the paper is 2, due 1"),
    (Trap::SevenOfScript, "the paper is 2, due 3"),
    (Trap::SixOfSheet, "the paper is 1, due 3"),
    (Trap::NoPaperWithVerdict, "the paper is not written, due 0"),
    // the value
    (Trap::ValueDropped, "the value is 0, due 3"),
    (Trap::NoValueWithVerdict, "the value is not written, due 0"),
    (Trap::LinesFromZero, "the value is 0, due 1"),
    (Trap::LineOfSeven, "the value is 4, due 0"),
    (Trap::LengthTwice, "the value is 6, due 3"),
    (Trap::LengthLent, "the value is 2, due 3"),
    (Trap::LengthMissing, "the value is 1, due 3"),
    // n
    (Trap::NoN, "n is not written, due 27"),
    (Trap::NoNWhenEqual, "n is not written, due 27"),
    (Trap::NWhenRefused, "n is changed, where nothing is due"),
    (Trap::NLent, "n is 32, due 3"),
    // the rule
    (Trap::SignsExchanged, "the rule is [-4, -25, 1], due [4, 25, 1]"),
    (Trap::HigherFirst, "the rule is [25, 4, 1], due [4, 25, 1]"),
    (Trap::LeastBound, "the rule is [11, -12, 967859178], due [11, -12, 989655612]"),
    (Trap::OfTightKey, "the rule is [2, 0, 4], due [1, 2, 4]"),
    (Trap::LastBroken, "the rule is [-1, 2, 4], due [1, 2, 4]"),
    (Trap::FirstListed, "the rule is [11, 0, 1117520373], due [11, -12, 989655612]"),
    (Trap::WithinLimits, "the rule is [-1, 5, 1000000000], due [-1, 5, 2000000000]"),
    (Trap::Doubled, "the rule is [1, 1, 1998], due [1, 0, 999]"),
    (Trap::NoRuleWord, "the rule is [0, 0, 9223372036854775807], due [0, 0, 0]"),
    (Trap::NoRuleUnwritten, "the rule is not written, due [0, 0, 0]"),
    (Trap::RuleWhenEqual, "the rule is changed, where nothing is due"),
    (Trap::RuleWhenRefused, "the rule is changed, where nothing is due"),
    // the integers
    (Trap::ValuesWhenEqual, "values: a word changed that is not of its first 0"),
    (Trap::ValuesWhenRefused, "values: a word changed that is not of its first 0"),
    (Trap::ValuesPastN, "values: a word changed that is not of its first 27"),
    (Trap::HiddenOne, "the hidden quantity 1 is 1, due 0"),
    (Trap::HiddenZero, "the integers break the sheet's rule -18+25:-15"),
    (Trap::Zeros, "the integers break the script's rule +2+3:-346423270"),
    // the order of refusals
    (Trap::SixBeforeScript, "number 6, due 1"),
    (Trap::SixAfterSeven, "number 7, due 6"),
    (Trap::SixWhereWritten, "number 100, due 6"),
    (Trap::NoSix, "number 101, due 6"),
    (Trap::SixByScript, "the value is 31, due 24"),
    (Trap::SixByLargest, "the value is 32, due 3"),
];

#[test]
fn the_plain_marker_is_accepted() {
    run::random(&Wrong::new(Trap::Nothing), 1, PAIRS).unwrap_or_else(|failure| panic!("{failure}"));
}

#[test]
fn each_trap_is_seen() {
    for (trap, said) in TRAPS {
        assert_eq!(seen(trap), said, "{trap:?}");
    }
}

/// What is told is a word that was there before the call, and not the same before each.
#[test]
fn an_integer_that_is_not_written_is_seen() {
    let said = seen(Trap::LastUnwritten);
    assert!(said.ends_with(" is out of range") || said == "called again it writes other integers", "{said}");
}

/// Which integers they are depends on the calls of the other thread.
#[test]
fn other_integers_at_every_call_are_seen() {
    assert_eq!(seen(Trap::Others), "called again it writes other integers");
}

/// What the judge says of the first failure, behind the pair's number and before its texts.
fn seen(trap: Trap) -> String {
    let failure = run::random(&Wrong::new(trap), 1, PAIRS).err().unwrap_or_else(|| panic!("{trap:?} goes unseen"));
    let (line, _) = failure.split_once("\nsheet, ").unwrap_or_else(|| panic!("{failure}"));
    let (_, said) = line.split_once(": with reasons: ").unwrap_or_else(|| panic!("{failure}"));
    said.to_string()
}
