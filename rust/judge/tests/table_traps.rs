//! Is the judge of marking two tables worth believing? It accepts the plain marker, and refuses each of the traps.

mod wrong_tables;

use judge::library::{EQUAL, LOOSE, TIGHT};
use judge::table_marking::run;
use wrong_tables::{Trap, Wrong};

const PAIRS: u64 = 1_500;

/// Each trap with what the judge says of the first failure: that it stumbles over something else is not enough.
const TRAPS: [(Trap, &str); 46] = [
    // the verdict
    (Trap::Always(EQUAL), "reply 100 with value 0, due 101 with value 0"),
    (Trap::Always(LOOSE), "reply 101 with value 0, due 100 with value 0"),
    (Trap::Always(TIGHT), "reply 102 with value 0, due 101 with value 0"),
    (Trap::Exchanged, "reply 102 with value 0, due 101 with value 0"),
    (Trap::VisibleRules, "reply 100 with value 0, due 101 with value 0"),
    (Trap::NoSheetFive, "reply 5 with value 0, due 101 with value 0"),
    // limits
    (Trap::ScriptAsSheet, "reply 3 with value 0, due 7 with value 0"),
    (Trap::SheetAsScript, "reply 7 with value 0, due 3 with value 0"),
    (Trap::LimitByN, "reply 102 with value 0, due 3 with value 0"),
    (Trap::LimitDoubledOnce, "reply 3 with value 0, due 7 with value 0"),
    (Trap::LimitMoved(1), "reply 7 with value 0, due 3 with value 0"),
    (Trap::LimitMoved(-1), "reply 3 with value 0, due 7 with value 0"),
    (Trap::LimitSkipsLast, "reply 7 with value 0, due 3 with value 0"),
    (Trap::LimitTestsBehind, "reply 3 with value 0, due 100 with value 0"),
    (Trap::HiddenUntested, "reply 100 with value 0, due 3 with value 0"),
    (Trap::PassesNamed, "reply 101 with value 0, due 7 with value 0"),
    // the order of refusals
    (Trap::SevenFirst, "reply 7 with value 0, due 3 with value 0"),
    (Trap::LimitBeforeLength, "reply 3 with value 0, due 6 with value 24"),
    (Trap::ValuesFirst, "reply 6 with value 27, due 6 with value 2916"),
    (Trap::WorkspaceOfKey, "reply 6 with value 27, due 6 with value 2916"),
    (Trap::LengthOfKey, "reply 6 with value 18, due 6 with value 36"),
    (Trap::ScriptUncounted, "reply 100 with value 0, due 1 with value 0"),
    (Trap::Accepts(33), "reply 100 with value 0, due 1 with value 0"),
    (Trap::ValueBeside(EQUAL), "reply 100 with value 1, due 100 with value 0"),
    (Trap::ValueBeside(1), "reply 1 with value 1, due 1 with value 0"),
    (Trap::ValueBeside(3), "reply 3 with value 1, due 3 with value 0"),
    (Trap::ValueBeside(7), "reply 7 with value 1, due 7 with value 0"),
    // the rule
    (Trap::RuleUnwritten, "the rule is not written, due [0, 0, 0]"),
    (Trap::RuleExchanged, "the rule is [25, 4, 1], due [4, 25, 1]"),
    (Trap::BoundFirst, "the rule is [1, 4, 25], due [4, 25, 1]"),
    (Trap::RuleWithinLimit, "the rule is [4, 0, -1000000000], due [4, 0, -65536000000000]"),
    (Trap::NoRuleWord, "the rule is [0, 0, 9223372036854775807], due [0, 0, 0]"),
    (Trap::RuleWhenEqual, "the rule is changed, where nothing is due"),
    (Trap::RuleWhenRefused(3), "the rule is changed, where nothing is due"),
    (Trap::RuleWhenRefused(7), "the rule is changed, where nothing is due"),
    // memory
    (Trap::ValuesLost(EQUAL), "values: a word changed that is not of its first 0"),
    (Trap::ValuesLost(3), "values: a word changed that is not of its first 0"),
    (Trap::ValuesLost(7), "values: a word changed that is not of its first 0"),
    (Trap::ValuesPastN, "values: a word changed that is not of its first 3"),
    (Trap::HiddenOne, "the hidden quantity 1 is 1, due 0"),
    (Trap::Zeros, "the script allows these integers"),
    (Trap::WorkspaceLost(1), "workspace: a word changed that is not of its first 0"),
    (Trap::WorkspaceLost(3), "workspace: a word changed that is not of its first 0"),
    (Trap::WorkspaceLost(6), "workspace: a word changed that is not of its first 0"),
    (Trap::WorkspaceLost(7), "workspace: a word changed that is not of its first 0"),
    (Trap::WritesPastWorkspace, "workspace: a word changed that is not of its first 36"),
];

#[test]
fn the_plain_marker_is_accepted() {
    run::random(&Wrong::new(Trap::Nothing), 1, PAIRS).unwrap_or_else(|failure| panic!("{failure}"));
}

#[test]
fn a_run_that_meets_nothing_fails() {
    let counts = run::random(&Wrong::new(Trap::Nothing), 1, 0).unwrap_or_else(|failure| panic!("{failure}"));
    assert_eq!(counts.all_met(), Err("no call was of the kind '1 n'".into()));
}

#[test]
fn each_trap_is_seen() {
    for (trap, said) in TRAPS {
        assert_eq!(seen(trap), said, "{trap:?}");
    }
}

/// Which integers they are depends on the calls of the other thread.
#[test]
fn other_integers_at_every_call_are_seen() {
    assert_eq!(seen(Trap::Others), "called again it writes other integers");
}

/// What the judge says of the first failure, behind the pair's number and before what is given.
fn seen(trap: Trap) -> String {
    let failure = run::random(&Wrong::new(trap), 1, PAIRS).err().unwrap_or_else(|| panic!("{trap:?} goes unseen"));
    let (line, _) = failure.split_once("\nn=").unwrap_or_else(|| panic!("{failure}"));
    let (_, said) = line.split_once(": ").unwrap_or_else(|| panic!("{failure}"));
    said.to_string()
}
