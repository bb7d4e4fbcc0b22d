//! Is the judge of the command worth believing? It accepts what belongs to a printed answer, and refuses what does not.

use judge::command::answer::{judged, Kind, Said};
use judge::command::ask;
use judge::command::bank;
use judge::command::steps::{self, Due};
use std::fs;
use std::path::Path;

const KEY: &str = "quantities=1\nhidden=\nrules=0\n";
const REFUSED: &str = "refused=3\npaper=script\nline=14\n";

fn said(status: Option<i32>, output: &str, errors: &str) -> Said {
    Said { status, output: output.into(), errors: errors.into() }
}

#[test]
fn what_belongs_to_an_answer_is_accepted() {
    assert_eq!(judged(KEY.as_bytes(), &said(Some(0), KEY, ""), false), Ok(Kind::Answer));
    let told = said(Some(1), REFUSED, "acornsled: script, line 14: refusal 3, a number outside its limit\n");
    assert_eq!(judged(REFUSED.as_bytes(), &told, false), Ok(Kind::Refusal));
    let told = said(Some(2), REFUSED, "acornsled: script: no such file\n");
    assert_eq!(judged(REFUSED.as_bytes(), &told, true), Ok(Kind::Unread));
}

#[test]
fn what_does_not_belong_to_it_is_refused() {
    let wrong: [(&str, Said, bool, &str); 14] = [
        (KEY, said(Some(0), "", ""), false, "line 1: nothing, due 'quantities=1\\n'"),
        (KEY, said(Some(0), "quantities=1\nhidden=\nrules=0", ""), false, "line 3: 'rules=0', due 'rules=0\\n'"),
        (KEY, said(Some(0), "acornsled\nquantities=1\n", ""), false, "line 1: 'acornsled\\n', due 'quantities=1\\n'"),
        (KEY, said(Some(1), KEY, ""), false, "exit status 1, due 0, with '' on standard error"),
        (KEY, said(None, KEY, ""), false, "exit status none, due 0, with '' on standard error"),
        (KEY, said(Some(0), KEY, "done\n"), false, "'done\\n' on standard error beside an answer"),
        (REFUSED, said(Some(0), REFUSED, "3\n"), false, "exit status 0, due 1, with '3\\n' on standard error"),
        (REFUSED, said(Some(2), REFUSED, "3\n"), false, "exit status 2, due 1, with '3\\n' on standard error"),
        (REFUSED, said(Some(1), "", "3\n"), false, "line 1: nothing, due 'refused=3\\n'"),
        (REFUSED, said(Some(1), REFUSED, ""), false, "'' on standard error, which does not name 3"),
        (REFUSED, said(Some(1), REFUSED, "line 14\n"), false, "'line 14\\n' on standard error, which does not name 3"),
        (
            REFUSED,
            said(Some(1), REFUSED, "13, 31, 3rd\n"),
            false,
            "'13, 31, 3rd\\n' on standard error, which does not name 3",
        ),
        (REFUSED, said(Some(1), REFUSED, "none\n"), true, "exit status 1, due 2, with 'none\\n' on standard error"),
        (REFUSED, said(Some(2), REFUSED, ""), true, "nothing on standard error beside a refusal"),
    ];
    for (printed, said, unread, due) in wrong {
        assert_eq!(judged(printed.as_bytes(), &said, unread), Err(due.into()));
    }
}

/// What is stored for questions was written by hand; a file that is missing counts as an empty text.
#[test]
fn questions_are_answered_as_it_is_stored() {
    let folder = Path::new(env!("CARGO_MANIFEST_DIR")).join("../../tests/ask");
    let cases: Vec<_> = fs::read_dir(folder).expect("the cases are there").map(|case| case.unwrap().path()).collect();
    assert!(cases.len() > 20, "{} cases", cases.len());
    for case in cases {
        let [sheet, questions] = ["sheet", "questions"].map(|name| fs::read(case.join(name)).unwrap_or_default());
        let stored = fs::read_to_string(case.join("stdout")).expect("what is printed is stored");
        assert_eq!(ask::printed(&sheet, &questions), Ok(stored), "{}", case.display());
    }
}

/// What is stored for steps was written by hand as well.
#[test]
fn steps_are_printed_as_it_is_stored() {
    let folder = Path::new(env!("CARGO_MANIFEST_DIR")).join("../../tests/steps");
    let cases: Vec<_> = fs::read_dir(folder).expect("the cases are there").map(|case| case.unwrap().path()).collect();
    assert!(cases.len() > 20, "{} cases", cases.len());
    for case in cases {
        let sheet = fs::read(case.join("sheet")).unwrap_or_default();
        let quantity = fs::read_to_string(case.join("quantity")).ok();
        let quantity = quantity.as_deref().map(str::trim_end);
        let stored = fs::read_to_string(case.join("stdout")).expect("what is printed is stored");
        let due = match (stored.is_empty(), quantity) {
            (false, _) => Due::Lines(stored),
            (true, None) => Due::Nothing,
            (true, Some(_)) => Due::Misused,
        };
        assert_eq!(steps::due(&sheet, quantity), Ok(due), "{}", case.display());
    }
}

/// What is stored for bank sheets, too.
#[test]
fn bank_sheets_are_printed_as_it_is_stored() {
    let folder = Path::new(env!("CARGO_MANIFEST_DIR")).join("../../tests/bank");
    let cases: Vec<_> = fs::read_dir(folder).expect("the cases are there").map(|case| case.unwrap().path()).collect();
    assert!(cases.len() > 20, "{} cases", cases.len());
    for case in cases {
        let sheet = fs::read(case.join("sheet")).unwrap_or_default();
        let [stored, check] =
            ["stdout", "check"].map(|name| fs::read_to_string(case.join(name)).expect("what is printed is stored"));
        assert_eq!(bank::printed(&sheet), stored, "{}", case.display());
        assert_eq!(bank::checked(&sheet), Ok(check), "{}", case.display());
    }
}

#[test]
fn other_answers_about_bank_sheets_are_refused() {
    let sheet = b"quantities=2\nhidden=\nrules=2\nrule=+2+1:5\nrule=+1+1:7\n";
    let (form, refusal) = (bank::printed(sheet), bank::checked(sheet).unwrap_or_else(|failure| panic!("{failure}")));
    assert_eq!(form, "quantities=2\nhidden=\nrules=2\nrule=+1:3\nrule=+1+2:5\n");
    assert_eq!(refusal, "refused=9\nline=4\n");
    assert_eq!(bank::checked(form.as_bytes()), Ok("bank=yes\n".into()));
    let told = "acornsled: sheet: refused with 9 at line 4\n";
    assert_eq!(judged(refusal.as_bytes(), &said(Some(1), &refusal, told), false), Ok(Kind::Refusal));
    for (due, wrong) in [
        (&form, said(Some(0), "quantities=2\nhidden=\nrules=2\nrule=+1+2:5\nrule=+1:3\n", "")),
        (&form, said(Some(0), "bank=no\n", "")),
        (&form, said(Some(1), &refusal, told)),
        (&refusal, said(Some(0), "bank=yes\n", "")),
        (&refusal, said(Some(0), &refusal, told)),
        (&refusal, said(Some(1), "refused=9\nline=5\n", told)),
        (&refusal, said(Some(1), &refusal, "acornsled: sheet: not in bank form\n")),
    ] {
        assert!(judged(due.as_bytes(), &wrong, false).is_err(), "{}", wrong.output.escape_ascii());
    }
}

#[test]
fn steps_that_are_not_due_are_refused() {
    let step = Due::Lines("hide=1\nbefore=block 1\nafter=block 1\nafter=clearing\n".into());
    let usage = "acornsled: 2 is no quantity that is hidden\nusage: acornsled steps SHEET [QUANTITY]\n";
    let none = "acornsled: sheet: no quantity is hidden\n";
    let right = [
        (&step, said(Some(0), "hide=1\nbefore=block 1\nafter=block 1\nafter=clearing\n", ""), Kind::Answer),
        (&Due::Nothing, said(Some(0), "", none), Kind::Answer),
        (&Due::Misused, said(Some(2), "", usage), Kind::Misuse),
    ];
    for (due, said, kind) in right {
        assert_eq!(steps::judged(due, &said, false), Ok(kind));
    }
    let wrong = [
        (&step, said(Some(0), "hide=1\nbefore=block 1\nafter=clearing\n", "")),
        (&step, said(Some(0), "", none)),
        (&step, said(Some(2), "", usage)),
        (&Due::Nothing, said(Some(0), "", "")),
        (&Due::Nothing, said(Some(1), "", none)),
        (&Due::Nothing, said(Some(0), "\n", none)),
        (&Due::Misused, said(Some(1), "", usage)),
        (&Due::Misused, said(Some(2), "", none)),
        (&Due::Misused, said(Some(2), "refused=3\nline=0\n", usage)),
    ];
    for (due, said) in wrong {
        assert!(steps::judged(due, &said, false).is_err(), "{due:?}");
    }
}
