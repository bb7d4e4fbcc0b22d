//! Help, and wrong use.

use crate::room::{ran, Room, LOOSE};
use std::fs;

#[test]
fn help_goes_to_standard_output() {
    let room = Room::new("help");
    for arguments in [&["--help"][..], &["-h"], &["--scripts", "--help", "sheet"]] {
        let (status, help, told) = ran(&mut room.sitting(arguments));
        assert_eq!((status, told.as_str()), (Some(0), ""));
        assert!(help.contains("\nusage: acornsled sitting [OPTION ..] SHEET FOLDER\n"), "{help}");
        for option in ["--scripts", "--list", "--list0", "--folder FOLDER", "--part K/N", "--no-header", "-h, --help"] {
            assert!(help.contains(&format!("\n  {option}  ")), "{help} has no {option}");
        }
    }
}

/// The help ends with a table, which is as it would be printed.
#[test]
fn the_example_of_the_help_is_true() {
    let room = Room::new("example");
    room.hand_in("one.txt", LOOSE);
    let (_, table, _) = ran(&mut room.sitting(&["sheet", "scripts"]));
    let indented: String = table.lines().map(|line| format!("    {line}\n")).collect();
    let (_, help, _) = ran(&mut room.sitting(&["--help"]));
    assert!(help.ends_with(&format!("    $ acornsled sitting sheet.txt scripts\n{indented}")), "{help}");
}

#[test]
fn the_version_goes_to_standard_output() {
    let room = Room::new("version");
    let due = format!("acornsled {}\n", env!("CARGO_PKG_VERSION"));
    for option in ["--version", "-V"] {
        assert_eq!(ran(&mut room.sitting(&[option])), (Some(0), due.clone(), String::new()));
    }
}

#[test]
fn wrong_use_is_told_and_marks_nothing() {
    let room = Room::new("wrong-use");
    let list = "with a list on standard input only SHEET is named";
    let two = "two names are due, SHEET and FOLDER";
    let part = "--part is to be followed by K/N, two numbers with K from 1 to N";
    let (folder, twice) = ("--folder is to be followed by a FOLDER", "can be given only once");
    let late = "options stand before SHEET";
    let one = "only one of --scripts, --list and --list0 can be asked for";
    let wrong: [(&[&str], &str); 33] = [
        (&[], "no sheet is named"),
        (&["--scripts"], "no sheet is named"),
        (&["--"], "no sheet is named"),
        (&["sheet"], two),
        (&["sheet", "scripts", "scripts"], two),
        (&["sheet", "scripts", "--no-header"], &format!("{two}; {late}")),
        (&["sheet", "scripts", "--part", "1/2"], &format!("{two}; {late}")),
        (&["sheet", "--part=1/2", "scripts"], &format!("{two}; {late}")),
        (&["--list", "sheet", "--no-header"], &format!("{list}; {late}")),
        (&["-x", "sheet", "scripts"], "there is no option -x; a file of that name is given after --"),
        (&["--list", "-"], "only one of the sheet and the list can be standard input"),
        (&["--folder", "scripts", "sheet"], "--folder goes with --scripts, --list or --list0 alone"),
        (&["--folder"], folder),
        (&["--folder", "", "--scripts", "sheet"], folder),
        (&["--folder=", "--scripts", "sheet"], folder),
        (&["--folder", "a", "--folder=b", "--scripts", "sheet"], &format!("--folder {twice}")),
        (&["--part"], part),
        (&["--part=", "1/2", "sheet", "scripts"], part),
        (&["--part=2", "sheet", "scripts"], part),
        (&["--part", "1/2", "--part", "1/2", "sheet", "scripts"], &format!("--part {twice}")),
        (&["--part=1/2", "--part=2/2", "sheet", "scripts"], &format!("--part {twice}")),
        (
            &["--no-header=1", "sheet", "scripts"],
            "there is no option --no-header=1; a file of that name is given after --",
        ),
        (&["--=", "sheet", "scripts"], "there is no option --=; a file of that name is given after --"),
        (&["--parts=1/2", "sheet", "scripts"], "there is no option --parts=1/2; a file of that name is given after --"),
        (&["--part", "0/4", "sheet", "scripts"], part),
        (&["--part", "5/4", "sheet", "scripts"], part),
        (&["--part", "1/0", "sheet", "scripts"], part),
        (&["--part", "+1/4", "sheet", "scripts"], part),
        (&["--part", "1", "sheet", "scripts"], part),
        (&["--part", "1/18446744073709551616", "sheet", "scripts"], part),
        (&["--scripts", "--list", "sheet"], one),
        (&["--list", "--list0", "sheet"], one),
        (&["--list", "sheet", "scripts"], list),
    ];
    for (arguments, what) in wrong {
        let (status, table, told) = ran(&mut room.sitting(arguments));
        assert_eq!((status, table.as_str()), (Some(2), ""), "{arguments:?}");
        let due = format!("acornsled: {what}\nusage: acornsled sitting ");
        assert!(told.starts_with(&due), "{arguments:?}: {told}");
    }
}

/// The value of an option may stand in it; all after the first `=` is the value.
#[test]
fn values_may_be_joined_to_their_options() {
    let room = Room::new("joined");
    room.hand_in("one", LOOSE);
    room.hand_in("two", LOOSE);
    let apart = ran(&mut room.sitting(&["--part", "2/2", "--folder", "scripts", "--scripts", "sheet", "one", "two"]));
    assert_eq!((apart.0, apart.1.lines().count()), (Some(0), 1));
    let joined = ran(&mut room.sitting(&["--part=2/2", "--folder=scripts", "--scripts", "sheet", "one", "two"]));
    assert_eq!(joined, apart);
    fs::rename(room.at("scripts"), room.at("a=b")).expect("a folder can be renamed");
    let (status, _, told) = ran(&mut room.sitting(&["--folder=a=b", "--scripts", "sheet", "one"]));
    assert_eq!((status, told.as_str()), (Some(0), "acornsled: 1 script: 0 equal, 1 loose, 0 tight, 0 refused\n"));
}
