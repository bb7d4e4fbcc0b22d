//! Is the judge of printed answers worth believing? It accepts right answers, and refuses each of the wrong ones: those
//! that are stated, and those of programs that fall into a trap.

mod wrong_printed;

use judge::printed::{key, mark, run};
use wrong_printed::stated::{text, KEYED, MARKED};
use wrong_printed::{Trap, Wrong};

/// So many that every kind of answer has to be met.
const ANSWERS: u64 = 2_000;

/// Each trap with what the judge says of the first failure: that it stumbles over something else is not enough.
const TRAPS: [(Trap, &str); 22] = [
    (Trap::FirstListed, "line 2: 'rule=-1+4:-2\\n', due 'rule=+19+22:1\\n'"),
    (Trap::LastBroken, "line 2: 'rule=-19-22:-1\\n', due 'rule=+19+22:1\\n'"),
    (Trap::RuleOfSheet, "line 2: 'rule=+2+8:165958084\\n', due 'rule=-5+7:972691734\\n'"),
    (Trap::RuleOfTightKey, "line 2: 'rule=+2:4\\n', due 'rule=+1+2:4\\n'"),
    (Trap::HigherFirst, "line 2: 'rule=+22+19:1\\n', due 'rule=+19+22:1\\n'"),
    (Trap::WithinLimits, "line 2: 'rule=-1+5:1000000000\\n', due 'rule=-1+5:2000000000\\n'"),
    (Trap::NoEmptyRule, "line 2: 'values=0,0,0\\n', due 'rule=\\n'"),
    (Trap::OtherBroken, "the integers meet the rule +19+22:1"),
    (Trap::OppositeAtBound, "the script allows these integers"),
    (Trap::HiddenOne, "the hidden quantity 1 is 1, due 0"),
    (Trap::HiddenZero, "the integers break the sheet's rule +10+22:-9"),
    (Trap::VisibleOnly, "0 integers, due 3"),
    (Trap::NoMinus, "the integers break the sheet's rule -1+4:-2"),
    (Trap::LinesFromZero, "line 2: 'line=1\\n', due 'line=2\\n'"),
    (Trap::AlwaysScript, "line 2: 'paper=script\\n', due 'paper=sheet\\n'"),
    (Trap::ScriptForBoth, "line 2: 'paper=script\\n', due 'paper=both\\n'"),
    (Trap::NoPaper, "line 2: 'line=1\\n', due 'paper=sheet\\n'"),
    (Trap::VisibleRules, "line 3: 'rules=4\\n', due 'rules=6\\n'"),
    (Trap::NothingHidden, "line 3: 'rules=14\\n', due 'rules=6\\n'"),
    (Trap::PlainKey, "line 3: 'rules=5\\n', due 'rules=6\\n'"),
    (Trap::NoLineZero, "line 2: nothing, due 'line=0\\n'"),
    (Trap::NoLastEnd, "line 2: 'line=0', due 'line=0\\n'"),
];

#[test]
fn stated_answers_of_mark_are_judged_as_stated() {
    for case in MARKED {
        let (sheet, script) = (text(&case.sheet), text(&case.script));
        for right in case.right {
            mark::judged(&sheet, &script, right.as_bytes()).unwrap_or_else(|failure| panic!("{right}: {failure}"));
        }
        for (wrong, said) in case.wrong {
            assert_eq!(mark::judged(&sheet, &script, wrong.as_bytes()), Err(said.to_string()), "{wrong}");
        }
    }
}

#[test]
fn stated_answers_of_key_are_judged_as_stated() {
    for (sheet, right, answers) in KEYED {
        let sheet = text(&sheet);
        key::judged(&sheet, right.as_bytes()).unwrap_or_else(|failure| panic!("{right}: {failure}"));
        for (wrong, said) in answers {
            assert_eq!(key::judged(&sheet, wrong.as_bytes()), Err(said.to_string()), "{wrong}");
        }
    }
}

#[test]
fn right_programs_are_accepted() {
    run::all(&Wrong::new(Trap::Nothing), 1, ANSWERS).unwrap_or_else(|failure| panic!("{failure}"));
}

#[test]
fn a_run_that_meets_nothing_fails() {
    let counts = run::random(&Wrong::new(Trap::Nothing), 1, 0).unwrap_or_else(|failure| panic!("{failure}"));
    assert_eq!(counts.all_met(), Err("no answer was of the kind 'equal'".into()));
}

#[test]
fn each_trap_is_seen() {
    for (trap, said) in TRAPS {
        assert_eq!(seen(trap), said, "{trap:?}");
    }
}

/// What the judge says of the first failure, behind the answer's number and before the texts.
fn seen(trap: Trap) -> String {
    let failure = run::random(&Wrong::new(trap), 1, ANSWERS).err().unwrap_or_else(|| panic!("{trap:?} goes unseen"));
    let (line, _) = failure.split_once("\nsheet, ").unwrap_or_else(|| panic!("{failure}"));
    let (_, said) = line.split_once(": ").unwrap_or_else(|| panic!("{failure}"));
    said.to_string()
}
