//! `acornsled mark`: what it prints to the byte, and why a script does not fit.

mod room;

use room::{acornsled, ran, ran_on, Ran, Room, SHEET};

fn script(rules: &[&str]) -> String {
    let lines: String = rules.iter().map(|rule| format!("rule={rule}\n")).collect();
    format!("quantities=3\nhidden=2\nrules={}\n{lines}", rules.len())
}

fn marked(room: &Room, sheet: &str, script: &str) -> Ran {
    let [sheet, script] = [("sheet.txt", sheet), ("script.txt", script)].map(|(name, text)| room.file(name, text));
    ran(&mut acornsled(["mark".into(), sheet, script]))
}

#[test]
fn verdicts_are_printed_with_their_rule_and_integers() {
    let room = Room::new("verdicts");
    let contradictory = script(&["+1:0", "-1:-1"]);
    let due = [
        (SHEET, script(&["+1+1:7", "+1+3:5"]), "verdict=equal\n"),
        (SHEET, script(&["+1:3"]), "verdict=loose\nrule=+1+3:5\nvalues=3,0,3\n"),
        (SHEET, script(&["+1:2", "+1+3:5"]), "verdict=tight\nrule=+1:2\nvalues=3,1,0\n"),
        // the sheet allows nothing, and no rule can be named
        (&contradictory, script(&[]), "verdict=loose\nrule=\nvalues=0,0,0\n"),
    ];
    for (sheet, script, printed) in due {
        let answered = Ran { status: Some(0), output: printed.into(), told: String::new() };
        assert_eq!(marked(&room, sheet, &script), answered);
    }
}

#[test]
fn a_refusal_names_its_paper_and_explains_it() {
    let room = Room::new("papers");
    let got = marked(&room, "quantities=3\n", "");
    assert_eq!((got.status, got.output.as_str()), (Some(1), "refused=2\npaper=sheet\nline=2\n"));
    let head = format!("acornsled: the sheet {}: refused with 2 at line 2\n", room.at("sheet.txt").display());
    assert!(got.told.starts_with(&head), "{}", got.told);

    let got = marked(&room, SHEET, &script(&["+1:3", "+1-1:0"]));
    assert_eq!((got.status, got.output.as_str()), (Some(1), "refused=4\npaper=script\nline=5\n"));
    let head = format!("acornsled: the script {}: refused with 4 at line 5, byte 6\n", room.at("script.txt").display());
    assert!(got.told.starts_with(&head), "{}", got.told);
}

/// What is told below the headline where the two papers do not fit.
fn misfit(room: &Room, script: &str) -> String {
    let got = marked(room, SHEET, script);
    assert_eq!((got.status, got.output.as_str()), (Some(1), "refused=7\npaper=both\nline=0\n"));
    let [sheet, script] = ["sheet.txt", "script.txt"].map(|name| room.at(name));
    let (sheet, script) = (sheet.display(), script.display());
    let headline = format!("acornsled: the script {script} does not fit the sheet {sheet}: refused with 7\n");
    got.told.strip_prefix(&headline).unwrap_or_else(|| panic!("{}", got.told)).to_string()
}

#[test]
fn a_script_that_does_not_fit_is_told_why() {
    let room = Room::new("misfits");
    let expected = "    expected: the sheet's first two lines, quantities=3 and hidden=2\n";
    assert_eq!(
        misfit(&room, "quantities=4\nhidden=2\nrules=0\n"),
        format!("    the sheet has 3 quantities, the script 4\n{expected}")
    );
    assert_eq!(
        misfit(&room, "quantities=3\nhidden=\nrules=0\n"),
        format!("    hidden quantities of the sheet: 2; of the script: none\n{expected}")
    );
    assert_eq!(
        misfit(&room, "quantities=3\nhidden=1,2,3\nrules=0\n"),
        format!("    hidden quantities of the sheet: 2; of the script: 1, 2 and 3\n{expected}")
    );
    let naming =
        "    line 5 of the script names a hidden quantity:\n    rule=+3-2:0\n            ^ quantity 2 is hidden\n    \
                  expected: rules of visible quantities alone, here 1 and 3\n";
    assert_eq!(misfit(&room, &script(&["+1:3", "+3-2:0", "+2:5"])), naming);
}

/// The key of a sheet with the largest bounds needs bounds that no sheet may have, and is its script.
#[test]
fn a_script_may_have_the_bounds_of_a_key() {
    let room = Room::new("large");
    let sheet = "quantities=3\nhidden=2\nrules=2\nrule=+1-2:1000000000\nrule=+2-3:1000000000\n";
    let key = acornsled::key(sheet.as_bytes()).expect("the sheet has a key");
    assert_eq!(key, script(&["+1-3:2000000000"]).into_bytes());
    assert_eq!(marked(&room, sheet, &script(&["+1-3:2000000000"])).output, "verdict=equal\n");
    let tight = marked(&room, sheet, &script(&["+1-3:1999999999"])).output;
    assert!(tight.starts_with("verdict=tight\nrule=+1-3:1999999999\nvalues="), "{tight}");
    assert_eq!(marked(&room, sheet, &script(&["+1-3:2000000001"])).output, "refused=3\npaper=script\nline=4\n");
}

/// What the script's own list allows is read, and then the list is held against the sheet's.
#[test]
fn a_script_with_large_bounds_that_does_not_fit_is_told_why() {
    let room = Room::new("large-misfits");
    let expected = "    expected: the sheet's first two lines, quantities=3 and hidden=2\n";
    assert_eq!(
        misfit(&room, "quantities=3\nhidden=1,2\nrules=1\nrule=+3:4000000000\n"),
        format!("    hidden quantities of the sheet: 2; of the script: 1 and 2\n{expected}")
    );
    let naming =
        "    line 4 of the script names a hidden quantity:\n    rule=+3-2:2000000000\n            ^ quantity 2 is \
                  hidden\n    expected: rules of visible quantities alone, here 1 and 3\n";
    assert_eq!(misfit(&room, &script(&["+3-2:2000000000"])), naming);
}

/// Where the papers fit in the other order, that is told too.
#[test]
fn papers_that_may_be_exchanged_are_told() {
    let room = Room::new("exchanged");
    let got = marked(&room, &script(&["+1:3", "+1+3:5"]), SHEET);
    assert_eq!((got.status, got.output.as_str()), (Some(1), "refused=7\npaper=both\nline=0\n"));
    let due = "    expected: rules of visible quantities alone, here 1 and 3\n    \
               what helps: the two may be exchanged, for in the other order they fit; the sheet is named first\n";
    assert!(got.told.contains("    line 4 of the script names a hidden quantity:\n"), "{}", got.told);
    assert!(got.told.ends_with(due), "{}", got.told);
}

#[test]
fn one_of_the_papers_may_be_standard_input() {
    let room = Room::new("mark-input");
    let (sheet, equal) = (room.file("sheet", SHEET), script(&["+1:3", "+1+3:5"]));
    let equal_file = room.file("equal", &equal);
    let answered = || Ran { status: Some(0), output: "verdict=equal\n".into(), told: String::new() };
    assert_eq!(ran_on(acornsled(["mark"]).arg(&sheet).arg("-"), equal.as_bytes()), answered());
    assert_eq!(ran_on(acornsled(["mark", "-"]).arg(equal_file), SHEET.as_bytes()), answered());
    let refused = ran_on(acornsled(["mark"]).arg(&sheet).arg("-"), b"");
    assert!(refused.told.starts_with("acornsled: the script on standard input: refused with 2 at line 1\n"));
    let both = ran(&mut acornsled(["mark", "-", "-"]));
    assert_eq!((both.status, both.output.as_str()), (Some(2), ""));
    assert!(both.told.starts_with("acornsled: only one of the two can be standard input\nusage: "), "{}", both.told);
}
