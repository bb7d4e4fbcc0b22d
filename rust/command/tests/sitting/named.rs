//! Scripts that are named as arguments or on standard input.

use crate::room::{ran, ran_with, Room, AS_EMPTY, AS_EQUAL, AS_LOOSE, AS_TIGHT, EQUAL, HEADER, LOOSE, TIGHT};
use std::fs;

fn room(test: &str) -> Room {
    let room = Room::new(test);
    room.hand_in("equal", EQUAL);
    room.hand_in("loose", LOOSE);
    room.hand_in("two\nlines", TIGHT);
    room
}

#[test]
fn scripts_are_named_by_arguments_in_their_order() {
    let room = room("arguments");
    let names = ["scripts/loose", "scripts/equal", "./scripts//loose", "scripts", "gone"];
    let due = format!(
        "{HEADER}scripts/loose{AS_LOOSE}\nscripts/equal{AS_EQUAL}\n./scripts//loose{AS_LOOSE}\nscripts{AS_EMPTY}\n\
         gone{AS_EMPTY}\n"
    );
    let told = "acornsled: 2 scripts could not be read and got the row of an empty text:\n\
        acornsled:   \"scripts\": it is a folder\n\
        acornsled:   \"gone\": No such file or directory (os error 2)\n\
        acornsled: 5 scripts: 1 equal, 2 loose, 0 tight, 2 refused\n";
    let arguments = [&["--scripts", "sheet"], &names[..]].concat();
    assert_eq!(ran(&mut room.sitting(&arguments)), (Some(0), due, told.into()));
}

#[test]
fn without_scripts_there_is_the_header_alone() {
    let room = room("none");
    for naming in ["--scripts", "--list", "--list0"] {
        assert_eq!(ran(&mut room.sitting(&[naming, "sheet"])).1, HEADER);
        assert_eq!(ran(&mut room.sitting(&[naming, "--no-header", "sheet"])).1, "");
    }
}

/// After the sheet everything is a name, so that a script may be called as an option is.
#[test]
fn names_after_the_sheet_are_no_options() {
    let room = room("options");
    room.hand_in("--help", LOOSE);
    room.hand_in("--", EQUAL);
    let (status, table, _) =
        ran(&mut room.sitting(&["--scripts", "--folder", "scripts", "sheet", "--help", "--", "-x"]));
    let due = format!("{HEADER}--help{AS_LOOSE}\n--{AS_EQUAL}\n-x{AS_EMPTY}\n");
    assert_eq!((status, table), (Some(0), due));
    room.put("-sheet", crate::room::SHEET);
    let (status, table, _) = ran(&mut room.sitting(&["--scripts", "--", "-sheet", "scripts/equal"]));
    assert_eq!((status, table), (Some(0), format!("{HEADER}scripts/equal{AS_EQUAL}\n")));
}

#[test]
fn names_are_looked_up_in_the_folder_that_is_given() {
    let room = room("folder");
    let arguments = ["--folder", "scripts", "--scripts", "sheet", "loose", "../scripts/equal", "two\nlines"];
    let (status, table, _) = ran(&mut room.sitting(&arguments));
    let due = format!("{HEADER}loose{AS_LOOSE}\n../scripts/equal{AS_EQUAL}\n\"two\nlines\"{AS_TIGHT}\n");
    assert_eq!((status, table), (Some(0), due));
}

/// Else every script would get the row of an empty text, where a disk is not there.
#[test]
fn a_folder_to_look_in_that_is_not_there_is_told() {
    let room = room("no-folder");
    let due = "acornsled: the folder none cannot be found: No such file or directory (os error 2)\n";
    for naming in ["--scripts", "--list"] {
        let got = ran(&mut room.sitting(&["--folder", "none", naming, "sheet"]));
        assert_eq!(got, (Some(2), String::new(), due.into()));
    }
    let got = ran(&mut room.sitting(&["--folder", "sheet", "--scripts", "sheet", "equal"]));
    assert_eq!(got, (Some(2), String::new(), "acornsled: sheet is no folder\n".into()));
}

/// The last name may lack its end, and an empty line is a name as well, by which nothing is found.
#[test]
fn a_list_has_a_name_a_line() {
    let room = room("list");
    let mut command = room.sitting(&["--folder", "scripts", "--list", "--no-header", "sheet"]);
    let rows = format!("loose{AS_LOOSE}\nequal{AS_EQUAL}\n");
    assert_eq!(ran_with(&mut command, b"loose\nequal\n").1, rows);
    assert_eq!(ran_with(&mut command, b"loose\nequal").1, rows);
    assert_eq!(
        ran_with(&mut command, b"loose\n\nequal\r\n").1,
        format!("loose{AS_LOOSE}\n{AS_EMPTY}\n\"equal\\r\"{AS_EMPTY}\n")
    );
}

/// Names stay as they are, and a file may have one that ends so; where nothing is found by it, the list is the likely reason.
#[test]
fn a_list_with_carriage_returns_is_told() {
    let room = room("windows");
    room.hand_in("odd\r", EQUAL);
    let told = |list: &str, names: &[u8]| {
        let (status, _, told) = ran_with(&mut room.sitting(&["--folder", "scripts", list, "sheet"]), names);
        assert_eq!(status, Some(0));
        told.lines().filter(|line| line.contains("carriage returns")).map(str::to_string).collect::<Vec<_>>()
    };
    let begin = "acornsled: the list has carriage returns (Windows line ends), which are part of the names: ";
    let due = format!("{begin}2 such names are not found, as \"equal\\\\r\"");
    assert_eq!(told("--list", b"equal\r\nloose\r\nodd\r\n"), [due]);
    let due = format!("{begin}1 such name is not found, as \"gone\\\\r\"");
    assert_eq!(told("--list", b"equal\ngone\r\n"), [due]);
    assert!(told("--list", b"odd\r\nequal\ngone\n").is_empty());
    assert!(told("--list0", b"gone\r\0").is_empty());
}

#[test]
fn a_list_may_end_its_names_with_byte_0() {
    let room = room("list0");
    let mut command = room.sitting(&["--folder", "scripts", "--list0", "--no-header", "sheet"]);
    let rows = format!("\"two\nlines\"{AS_TIGHT}\nequal{AS_EQUAL}\n");
    assert_eq!(ran_with(&mut command, b"two\nlines\0equal\0").1, rows);
    assert_eq!(ran_with(&mut command, b"two\nlines\0equal").1, rows);
}

#[test]
fn byte_0_in_a_list_of_lines_is_wrong_use() {
    let room = room("wrong-list");
    let told = "acornsled: the list on standard input has a byte 0; names that end with it are read by --list0\n";
    let got = ran_with(&mut room.sitting(&["--list", "sheet"]), b"scripts/loose\0scripts/equal\0");
    assert_eq!(got, (Some(2), String::new(), told.into()));
}

#[test]
fn a_list_that_cannot_be_read_is_told() {
    let room = room("no-list");
    let (status, table, told) = ran(&mut room.shell("acornsled sitting --list sheet <&-"));
    let due = "acornsled: the list on standard input cannot be read: Bad file descriptor (os error 9)\n";
    assert_eq!((status, table.as_str(), told.as_str()), (Some(2), "", due));
    let (status, table, told) = ran(&mut room.shell("acornsled sitting --list sheet < scripts"));
    let due = "acornsled: the list on standard input cannot be read: Is a directory (os error 21)\n";
    assert_eq!((status, table.as_str(), told.as_str()), (Some(2), "", due));
}

/// A long list is read to its end.
#[test]
fn a_list_may_be_longer_than_a_text() {
    let room = room("long-list");
    let name = format!("{}scripts/gone", "./".repeat(20_000));
    fs::write(room.at("names"), format!("{name}\n{name}\nscripts/equal\n")).expect("a file can be written");
    let (status, table, _) = ran(&mut room.shell("acornsled sitting --no-header --list sheet < names"));
    let due = format!("{name}{AS_EMPTY}\n{name}{AS_EMPTY}\nscripts/equal{AS_EQUAL}\n");
    assert_eq!((status, table), (Some(0), due));
}
