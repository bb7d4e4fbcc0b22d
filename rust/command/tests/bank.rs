//! `acornsled bank`: what it prints to the byte, with and without `--check`, on the stored cases of tests/bank and on random
//! sheets.

mod random;
mod room;

use acornsled::{Refusal, Table};
use random::{text, Random};
use room::{acornsled, ran, ran_on, shell, Ran, Room, SHEET};
use std::fs;
use std::path::{Path, PathBuf};

/// Sheet A in bank form.
const BANK: &str = "quantities=3\nhidden=2\nrules=3\nrule=+1+2:5\nrule=+1-2:2\nrule=-2+3:0\n";

fn printed(output: impl Into<String>) -> Ran {
    Ran { status: Some(0), output: output.into(), told: String::new() }
}

/// The text of a sheet with these rules.
fn sheet(quantities: usize, hidden: &str, rules: &[&str]) -> String {
    text(quantities, hidden, &rules.iter().map(|rule| rule.to_string()).collect::<Vec<_>>())
}

/// What `--check` says of a text.
fn checked(text: &str) -> Ran {
    ran_on(&mut acornsled(["bank", "--check"]), text.as_bytes())
}

/// The text in bank form.
fn form(text: &str) -> String {
    let table = Table::read(text.as_bytes()).expect("the text is a sheet");
    String::from_utf8(table.text().expect("a table that is read can be written")).expect("a text is ASCII")
}

/// The stored cases: in each folder a sheet, which may be missing, what `bank` prints, and what `bank --check` prints.
fn stored() -> Vec<PathBuf> {
    let folder = Path::new(env!("CARGO_MANIFEST_DIR")).join("../../tests/bank");
    let entries = fs::read_dir(folder).expect("the cases are there");
    let mut folders: Vec<PathBuf> = entries.map(|entry| entry.expect("a folder can be read").path()).collect();
    folders.sort();
    assert!(folders.len() >= 50, "{} cases", folders.len());
    folders
}

#[test]
fn the_stored_cases_are_printed() {
    for folder in stored() {
        let read = |name: &str| fs::read_to_string(folder.join(name));
        for (arguments, due) in [(&["bank", "sheet"][..], "stdout"), (&["bank", "--check", "sheet"], "check")] {
            let due = read(due).expect("what is due is there");
            let refused = due.starts_with("refused=");
            let status = if read("sheet").is_err() { 2 } else { i32::from(refused) };
            let got = ran(acornsled(arguments).current_dir(&folder));
            assert_eq!((got.status, &got.output), (Some(status), &due), "{}: {}", folder.display(), got.told);
            assert_eq!(got.told.is_empty(), !refused, "{}: {}", folder.display(), got.told);
        }
    }
}

/// What is stored is in itself as it should be: a bank form is in bank form, and no other text is.
#[test]
fn a_bank_form_stays_and_is_the_only_one() {
    for folder in stored() {
        let read = |name: &str| fs::read_to_string(folder.join(name)).unwrap_or_default();
        let (sheet, form, check) = (read("sheet"), read("stdout"), read("check"));
        assert_eq!(check == "bank=yes\n", sheet == form, "{}", folder.display());
        if !form.starts_with("refused=") {
            assert_eq!(ran_on(&mut acornsled(["bank"]), form.as_bytes()), printed(&form), "{}", folder.display());
            assert_eq!(checked(&form), printed("bank=yes\n"), "{}", folder.display());
            let key = |text: &str| ran_on(&mut acornsled(["key"]), text.as_bytes());
            assert_eq!(key(&form).output, key(&sheet).output, "{}", folder.display());
        }
    }
}

#[test]
fn the_sheet_comes_from_a_file_or_from_standard_input() {
    let room = Room::new("bank");
    let sheet = room.file("a sheet.txt", SHEET);
    let bank = room.file("a bank sheet.txt", BANK);
    assert_eq!(ran(acornsled(["bank"]).arg(&sheet)), printed(BANK));
    assert_eq!(ran(acornsled(["bank", "--"]).arg(&sheet)), printed(BANK));
    assert_eq!(ran_on(&mut acornsled(["bank"]), SHEET.as_bytes()), printed(BANK));
    assert_eq!(ran_on(&mut acornsled(["bank", "-"]), SHEET.as_bytes()), printed(BANK));
    assert_eq!(ran_on(&mut acornsled(["bank", "--", "-"]), SHEET.as_bytes()), printed(BANK));
    assert_eq!(ran(&mut shell("\"$0\" bank <(cat \"$1\")", [&sheet])), printed(BANK));
    let yes = || printed("bank=yes\n");
    assert_eq!(ran(acornsled(["bank", "--check"]).arg(&bank)), yes());
    assert_eq!(ran(acornsled(["bank"]).arg(&bank).arg("--check")), yes());
    assert_eq!(ran(acornsled(["bank", "--check", "--"]).arg(&bank)), yes());
    assert_eq!(ran_on(&mut acornsled(["bank", "--check"]), BANK.as_bytes()), yes());
    assert_eq!(ran_on(&mut acornsled(["bank", "--check", "-"]), BANK.as_bytes()), yes());
    assert_eq!(ran(&mut shell("\"$0\" bank \"$1\" | \"$0\" bank --check", [&sheet])), yes());
    // after -- it is the name of a file
    room.file("--check", SHEET);
    assert_eq!(ran(acornsled(["bank", "--", "--check"]).current_dir(room.at(""))), printed(BANK));
}

/// A text that is refused in any form is told of as key tells it, whatever its rules' order is.
#[test]
fn other_refusals_are_those_of_key() {
    let texts = [
        "quantities=3\n".to_string(),
        sheet(3, "2", &["+1:1000000001"]),
        sheet(3, "2", &["+2+1:1000000001", "+1:0"]),
        sheet(3, "2", &["+1:3", "+2-2:0"]),
        SHEET.replace('\n', "\r\n"),
        format!("{BANK}\n"),
        "x".repeat(65_537),
    ];
    for text in texts {
        let key = ran_on(&mut acornsled(["key"]), text.as_bytes());
        assert_eq!(key.status, Some(1));
        assert_eq!(ran_on(&mut acornsled(["bank"]), text.as_bytes()), key);
        assert_eq!(checked(&text), key);
    }
    // the bank form says nothing of whether integers satisfy the sheet
    let none = sheet(1, "", &["-1:-1", "+1:0"]);
    assert_eq!(ran_on(&mut acornsled(["bank"]), none.as_bytes()), printed(sheet(1, "", &["+1:0", "-1:-1"])));
}

/// A rule at every place, with the longest bounds, is still a sheet.
#[test]
fn the_longest_sheet_has_a_bank_form() {
    let signs = ['+', '-'];
    let mut rules = Vec::new();
    for q in 1..=32 {
        rules.extend(signs.map(|sign| format!("{sign}{q}:-1000000000")));
        for p in 1..q {
            let pairs = signs.iter().flat_map(|first| signs.map(|second| format!("{first}{p}{second}{q}:-1000000000")));
            rules.extend(pairs);
        }
    }
    let hidden: Vec<String> = (1..=32).map(|quantity| quantity.to_string()).collect();
    let bank = text(32, &hidden.join(","), &rules);
    assert_eq!(rules.len(), 2_048);
    assert_eq!(checked(&bank), printed("bank=yes\n"));
    rules.reverse();
    let turned = text(32, &hidden.join(","), &rules);
    assert_eq!(ran_on(&mut acornsled(["bank"]), turned.as_bytes()), printed(&bank));
    let got = checked(&turned);
    assert_eq!(got.output, "refused=9\nline=5\n");
    assert!(got.told.contains("^^^^^^ place 2046, which is before place 2047 of line 4"), "{}", got.told);
}

/// The lines of a text with two of them exchanged.
fn exchanged(text: &str, line: usize) -> String {
    let mut lines: Vec<&str> = text.lines().collect();
    lines.swap(line - 1, line);
    lines.iter().map(|line| format!("{line}\n")).collect()
}

/// A text has one bank form, which is in bank form, and any other text is not: also the bank form with two lines exchanged. A
/// key is in bank form, for the library writes it.
#[test]
fn random_sheets_are_put_into_bank_form() {
    let (mut random, mut keys) = (Random(5), 0);
    for _ in 0..300 {
        let n = random.pick(&[1, 2, 3, 12, 32]);
        let rules: Vec<String> = (0..random.below(40)).map(|_| random.rule(n, 9)).collect();
        let text = text(n, "", &rules);
        let form = form(&text);
        assert_eq!(Table::read_bank(form.as_bytes()), Table::read(text.as_bytes()), "{text}");
        assert_eq!(Table::read_bank(text.as_bytes()).is_ok(), text == form, "{text}");
        if let Ok(key) = acornsled::tight_key(text.as_bytes()) {
            assert!(Table::read_bank(&key).is_ok(), "{text}");
            keys += 1;
        }
        for line in 4..form.lines().count() {
            let refused = Table::read_bank(exchanged(&form, line).as_bytes());
            assert_eq!(refused, Err(Refusal::NotCanonical { line: line + 1 }), "{form}");
        }
    }
    assert!(keys > 50, "{keys} of the sheets have keys");
}
