//! Files that cannot be read, names of all kinds, and output that is lost.

mod room;

use room::{acornsled, ran, shell, Ran, Room, SHEET};
use std::ffi::OsStr;
use std::fs::{self, File, Permissions};
use std::io;
use std::os::unix::ffi::OsStrExt;
use std::os::unix::fs::{symlink, PermissionsExt};
use std::path::PathBuf;
use std::process::Stdio;

const LOST: &str = "acornsled: the answer cannot be written to standard output: ";

/// Each with what is told of it.
fn unreadable(room: &Room) -> Vec<(PathBuf, &'static str)> {
    let [folder, link, locked] = ["folder", "link", "locked"].map(|name| room.at(name));
    fs::create_dir(&folder).expect("a folder can be made");
    symlink(room.at("nowhere"), &link).expect("a link can be made");
    room.file("locked", SHEET);
    fs::set_permissions(&locked, Permissions::from_mode(0o000)).expect("a file can be locked");
    let mut paths = vec![
        (room.at("nowhere"), "No such file or directory"),
        (folder, "Is a directory"),
        (link, "No such file or directory"),
        (room.file("file", "").join("below"), "Not a directory"),
        (PathBuf::new(), "No such file or directory"),
    ];
    // for root no file is locked
    if File::open(&locked).is_err() {
        paths.push((locked, "Permission denied"));
    }
    paths
}

#[test]
fn a_file_that_cannot_be_read_counts_as_empty_is_told_and_gives_status_2() {
    let room = Room::new("unreadable");
    let sheet = room.file("sheet", SHEET);
    for (path, why) in unreadable(&room) {
        // an empty name would not be seen
        let shown = if path == PathBuf::new() { "''".into() } else { path.display().to_string() };
        let told = |name: &str| format!("acornsled: {name}{shown} cannot be read and counts as an empty text: {why}");
        let due = |arguments: [&OsStr; 3], output: &str, told: String| {
            let got = ran(&mut acornsled(arguments.iter().filter(|argument| **argument != "none")));
            assert_eq!((got.status, got.output.as_str()), (Some(2), output));
            assert!(got.told.starts_with(&told) && got.told.lines().count() == 1, "{}", got.told);
        };
        let [path, sheet] = [path.as_os_str(), sheet.as_os_str()];
        due(["key".as_ref(), path, "none".as_ref()], "refused=2\nline=1\n", told(""));
        due(["mark".as_ref(), path, sheet], "refused=2\npaper=sheet\nline=1\n", told("the sheet "));
        due(["mark".as_ref(), sheet, path], "refused=2\npaper=script\nline=1\n", told("the script "));
        due(["ask".as_ref(), path, sheet], "refused=2\npaper=sheet\nline=1\n", told("the sheet "));
        due(["ask".as_ref(), sheet, path], "refused=2\npaper=questions\nline=1\n", told("the questions "));
        due(["steps".as_ref(), path, "none".as_ref()], "refused=2\nline=1\n", told(""));
        due(["steps".as_ref(), path, "2".as_ref()], "refused=2\nline=1\n", told(""));
        due(["bank".as_ref(), path, "none".as_ref()], "refused=2\nline=1\n", told(""));
        due(["bank".as_ref(), "--check".as_ref(), path], "refused=2\nline=1\n", told(""));
        due(["explain".as_ref(), path, "none".as_ref()], "", format!("acornsled: {shown} cannot be read: {why}"));
    }
}

/// Of two papers each is told of, and a file that cannot be read counts for more than a refusal.
#[test]
fn both_papers_are_told_of() {
    let room = Room::new("both");
    let bad = room.file("bad", "quantities=0\n");
    let got = ran(acornsled(["mark"]).arg(bad).arg(room.at("nowhere")));
    assert_eq!((got.status, got.output.as_str()), (Some(2), "refused=3\npaper=sheet\nline=1\n"));
    assert!(
        got.told.contains("nowhere cannot be read") && got.told.contains("bad: refused with 3 at line 1"),
        "{}",
        got.told
    );
}

#[test]
fn names_of_any_bytes_are_opened_and_shown_harmlessly() {
    let room = Room::new("names");
    let names: [(&[u8], &str); 5] = [
        (b"\xff\xfe", "\\xff\\xfe"),
        (b"two\nlines", "two\\nlines"),
        (b" ", " "),
        (b"\x1b[2J", "\\u{1b}[2J"),
        ("Blätter".as_bytes(), "Blätter"),
    ];
    for (name, shown) in names {
        let good = room.file(OsStr::from_bytes(name), SHEET);
        let got = ran(acornsled(["key"]).arg(&good));
        assert_eq!((got.status, got.told.as_str()), (Some(0), ""), "{shown}");
        room.file(OsStr::from_bytes(name), "x");
        let got = ran(acornsled(["key"]).arg(&good));
        assert!(got.told.contains(&format!("/{shown}: refused with 2 at line 1")), "{}", got.told);
        fs::remove_file(&good).expect("the file can be removed");
        let got = ran(acornsled(["key"]).arg(&good));
        assert!(got.told.contains(&format!("/{shown} cannot be read and counts as an empty text")), "{}", got.told);
    }
}

/// What each of these prints is lost.
fn printing(room: &Room) -> [Vec<PathBuf>; 12] {
    let (sheet, bad) = (room.file("sheet", SHEET), room.file("bad", "x"));
    let script = room.file("script", "quantities=3\nhidden=2\nrules=0\n");
    [
        vec!["key".into(), sheet.clone()],
        vec!["key".into(), bad],
        vec!["mark".into(), sheet.clone(), script.clone()],
        vec!["ask".into(), sheet.clone(), sheet.clone()],
        vec!["steps".into(), sheet.clone()],
        vec!["steps".into(), sheet.clone(), "2".into()],
        vec!["bank".into(), sheet.clone()],
        vec!["bank".into(), "--check".into(), sheet.clone()],
        vec!["bank".into(), "--check".into(), script],
        vec!["explain".into(), sheet],
        vec!["--help".into()],
        vec!["key".into(), "--version".into()],
    ]
}

#[test]
fn lost_output_is_told_with_status_2() {
    let room = Room::new("lost");
    for arguments in printing(&room) {
        let due = |got: Ran, why: &str| {
            assert_eq!((got.status, got.output.as_str()), (Some(2), ""), "{arguments:?}");
            assert!(got.told.starts_with(&format!("{LOST}{why}")), "{arguments:?}: {}", got.told);
        };
        due(ran(&mut shell("\"$0\" \"$@\" > /dev/full", &arguments)), "No space left on device");
        due(ran(&mut shell("\"$0\" \"$@\" >&-", &arguments)), "Bad file descriptor");
        due(ran(&mut shell("\"$0\" \"$@\" <&- >&-", &arguments)), "Bad file descriptor");
        due(ran(&mut shell("\"$0\" \"$@\" 1< /dev/null", &arguments)), "Bad file descriptor");
        let got = ran(&mut shell("\"$0\" \"$@\" >&- 2>&-", &arguments));
        assert_eq!(got, Ran { status: Some(2), output: String::new(), told: String::new() });
        let got = ran(&mut shell("\"$0\" \"$@\" > /dev/full 2> /dev/full", &arguments));
        assert_eq!(got, Ran { status: Some(2), output: String::new(), told: String::new() });
    }
}

/// A reader that is gone loses the answer like a full disk; the command is not ended by the signal, which would be silent.
#[test]
fn a_reader_that_is_gone_is_told() {
    let room = Room::new("pipe");
    for arguments in printing(&room) {
        let (reader, writer) = io::pipe().expect("a pipe can be made");
        drop(reader);
        let got = acornsled(&arguments).stdout(Stdio::from(writer)).output().expect("the command can be run");
        let told = String::from_utf8_lossy(&got.stderr);
        assert_eq!(got.status.code(), Some(2), "{arguments:?}: {told}");
        assert!(told.starts_with(&format!("{LOST}Broken pipe")), "{arguments:?}: {told}");
    }
}

#[test]
fn closed_streams_that_are_not_needed_change_nothing() {
    let room = Room::new("closed");
    let (sheet, bad) = (room.file("sheet", SHEET), room.file("bad", "x"));
    let key = "quantities=3\nhidden=2\nrules=2\nrule=+1:3\nrule=+1+3:5\n";
    for line in [
        "\"$0\" key \"$1\" 2>&-",
        "\"$0\" key \"$1\" <&-",
        "\"$0\" key \"$1\" <&- 2>&-",
        "\"$0\" key \"$1\" 2> /dev/full",
    ] {
        let answered = Ran { status: Some(0), output: key.into(), told: String::new() };
        assert_eq!(ran(&mut shell(line, [&sheet])), answered, "{line}");
    }
    for line in ["\"$0\" key \"$1\" 2>&-", "\"$0\" key \"$1\" 2> /dev/full", "\"$0\" key \"$1\" <&- 2>&-"] {
        let refused = Ran { status: Some(1), output: "refused=2\nline=1\n".into(), told: String::new() };
        assert_eq!(ran(&mut shell(line, [&bad])), refused, "{line}");
    }
    let used = ran(&mut shell("\"$0\" 2> /dev/full", [&sheet]));
    assert_eq!((used.status, used.output.as_str()), (Some(2), ""));
}

#[test]
fn standard_input_that_is_closed_or_a_folder_cannot_be_read() {
    let room = Room::new("input");
    let sheet = room.file("sheet", SHEET);
    let got = ran(&mut shell("\"$0\" key <&-", [&sheet]));
    assert_eq!((got.status, got.output.as_str()), (Some(2), "refused=2\nline=1\n"));
    assert!(got
        .told
        .starts_with("acornsled: standard input cannot be read and counts as an empty text: Bad file descriptor"));
    let got = ran(&mut shell("\"$0\" key - < /", [&sheet]));
    assert_eq!((got.status, got.output.as_str()), (Some(2), "refused=2\nline=1\n"));
    let got = ran(&mut shell("\"$0\" mark \"$1\" - <&-", [&sheet]));
    assert_eq!((got.status, got.output.as_str()), (Some(2), "refused=2\npaper=script\nline=1\n"));
    assert!(got.told.starts_with("acornsled: the script on standard input cannot be read"), "{}", got.told);
}
