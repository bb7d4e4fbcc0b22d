//! `acornsled key`: what it prints to the byte, from files, pipes and standard input.

mod room;

use room::{acornsled, ran, ran_on, shell, Ran, Room, SHEET};

const KEY: &str = "quantities=3\nhidden=2\nrules=2\nrule=+1:3\nrule=+1+3:5\n";

fn answered() -> Ran {
    Ran { status: Some(0), output: KEY.into(), told: String::new() }
}

#[test]
fn the_key_is_printed_from_a_file_and_from_standard_input() {
    let room = Room::new("key");
    let sheet = room.file("a sheet.txt", SHEET);
    assert_eq!(ran(acornsled(["key"]).arg(&sheet)), answered());
    assert_eq!(ran(acornsled(["key", "--"]).arg(&sheet)), answered());
    assert_eq!(ran_on(&mut acornsled(["key"]), SHEET.as_bytes()), answered());
    assert_eq!(ran_on(&mut acornsled(["key", "-"]), SHEET.as_bytes()), answered());
    assert_eq!(ran_on(&mut acornsled(["key", "--", "-"]), SHEET.as_bytes()), answered());
    assert_eq!(ran(&mut shell("\"$0\" key <(cat \"$1\")", [sheet])), answered());
}

#[test]
fn a_key_without_rules_and_one_with_a_large_bound_are_printed() {
    let key = |text: &str| ran_on(&mut acornsled(["key"]), text.as_bytes());
    let free = key("quantities=2\nhidden=2\nrules=1\nrule=+1+2:0\n");
    assert_eq!((free.status, free.output.as_str()), (Some(0), "quantities=2\nhidden=2\nrules=0\n"));
    let large = key("quantities=3\nhidden=2\nrules=2\nrule=+1-2:1000000000\nrule=+2-3:1000000000\n");
    assert_eq!(large.output, "quantities=3\nhidden=2\nrules=1\nrule=+1-3:2000000000\n");
    assert_eq!(
        key("quantities=1\nhidden=\nrules=1\nrule=+1+1:-1\n").output,
        "quantities=1\nhidden=\nrules=1\nrule=+1:-1\n"
    );
}

/// The tightest key is printed, also where its bounds are past a script's.
#[test]
fn sheets_with_one_meaning_have_one_key() {
    let key = |rules: &[&str]| {
        let lines: String = rules.iter().map(|rule| format!("rule={rule}\n")).collect();
        let text = format!("quantities=2\nhidden=\nrules={}\n{lines}", rules.len());
        let Ran { status, output, told } = ran_on(&mut acornsled(["key"]), text.as_bytes());
        assert_eq!((status, told.as_str()), (Some(0), ""));
        output.lines().filter_map(|line| line.strip_prefix("rule=")).collect::<Vec<_>>().join(" ")
    };
    assert_eq!(key(&["+1:1", "+2:1"]), "+1:1 +2:1 +1+2:2");
    assert_eq!(key(&["+1:1", "+2:1", "+1+2:7"]), "+1:1 +2:1 +1+2:2");
    assert_eq!(key(&["+1+2:2", "+2+2:3", "+1+1:2"]), "+1:1 +2:1 +1+2:2");
    assert_eq!(key(&["+1+2:1", "+1-2:0"]), "+1:0 +1+2:1 +1-2:0");
    assert_eq!(
        key(&["+1:1000000000", "-1+2:1000000000"]),
        "+1:1000000000 +2:2000000000 +1+2:3000000000 -1+2:1000000000"
    );
}

#[test]
fn a_refusal_has_two_lines_and_status_1() {
    let due = [
        ("", "refused=2\nline=1\n"),
        ("quantities=33\nhidden=\nrules=0\n", "refused=3\nline=1\n"),
        ("quantities=1\nhidden=\nrules=1\nrule=+1-1:0\n", "refused=4\nline=4\n"),
        ("quantities=1\nhidden=\nrules=2\nrule=+1+1:1\nrule=-1-1:-1\n", "refused=5\nline=0\n"),
        ("quantities=1\nhidden=\nrules=1\nrule=+1:0\n\n", "refused=2\nline=5\n"),
    ];
    for (text, printed) in due {
        let got = ran_on(&mut acornsled(["key"]), text.as_bytes());
        assert_eq!((got.status, got.output.as_str()), (Some(1), printed), "{text:?}");
        assert!(got.told.starts_with("acornsled: standard input: refused with "), "{}", got.told);
    }
}

/// A name of no letters is seen nevertheless.
#[test]
fn an_empty_name_is_quoted() {
    let got = ran(&mut acornsled(["key", ""]));
    assert_eq!((got.status, got.output.as_str()), (Some(2), "refused=2\nline=1\n"));
    assert!(got.told.starts_with("acornsled: '' cannot be read and counts as an empty text: "), "{}", got.told);
    let got = ran(&mut acornsled(["mark", "", ""]));
    assert!(
        got.told.starts_with("acornsled: the sheet '' cannot be read and counts as an empty text: "),
        "{}",
        got.told
    );
    let got = ran(&mut acornsled(["explain", ""]));
    assert!(got.told.starts_with("acornsled: '' cannot be read: "), "{}", got.told);
}

/// At the limit the text is read, and one byte further it is not; an endless one ends too.
#[test]
fn as_much_is_read_as_shows_that_a_text_is_too_long() {
    let room = Room::new("key-size");
    let at_limit = room.file("at limit", vec![b'\n'; 65_536]);
    let past_limit = room.file("past limit", vec![b'\n'; 65_537]);
    let got = ran(acornsled(["key"]).arg(at_limit));
    assert_eq!((got.status, got.output.as_str()), (Some(1), "refused=2\nline=1\n"));
    for path in [past_limit, "/dev/zero".into()] {
        let got = ran(acornsled(["key"]).arg(path));
        assert_eq!((got.status, got.output.as_str()), (Some(1), "refused=1\nline=0\n"));
        assert!(
            got.told.contains("refused with 1: the text is too long\n    a text has at most 65,536 bytes"),
            "{}",
            got.told
        );
    }
}
