//! Which stream gets what, and the exit status.

use crate::room::{ran, Room, EQUAL};
use std::fs::File;
use std::process::Stdio;

fn room(test: &str) -> Room {
    let room = Room::new(test);
    room.hand_in("one", EQUAL);
    room
}

#[test]
fn a_refused_sheet_has_no_table() {
    let room = room("refused");
    room.put("sheet", b"quantities=3\nhidden=2\nrules=1\nrule=+1-1:0\n");
    let (status, table, told) = ran(&mut room.sitting(&["sheet", "scripts"]));
    assert_eq!((status, table.as_str()), (Some(1), ""));
    assert!(told.starts_with("acornsled: the sheet sheet: refused with 4 at line 4"), "{told}");
    assert!(told.ends_with("\nacornsled: no script is marked\n"), "{told}");
    // not its summary either
    assert!(!told.contains("1 script"), "{told}");
}

/// Nothing satisfies it, and it has verdicts all the same.
#[test]
fn a_sheet_that_nothing_satisfies_is_marked_against() {
    let room = room("unsatisfied");
    room.put("sheet", b"quantities=3\nhidden=2\nrules=2\nrule=+1:-1\nrule=-1:0\n");
    let (status, table, _) = ran(&mut room.sitting(&["--no-header", "sheet", "scripts"]));
    assert_eq!((status, table.as_str()), (Some(0), "one,loose,,,,rule=,\"values=0,0,0\"\n"));
}

#[test]
fn a_sheet_that_cannot_be_read_is_told() {
    let room = room("no-sheet");
    let due = "acornsled: the sheet none cannot be read: No such file or directory (os error 2)\n";
    assert_eq!(ran(&mut room.sitting(&["none", "scripts"])), (Some(2), String::new(), due.into()));
    let due = "acornsled: the sheet scripts cannot be read: Is a directory (os error 21)\n";
    assert_eq!(ran(&mut room.sitting(&["scripts", "scripts"])), (Some(2), String::new(), due.into()));
}

/// Named as `mark` names it.
#[test]
fn a_sheet_on_standard_input_is_named_so() {
    let room = room("sheet-on-input");
    let (status, table, told) = ran(&mut room.shell("acornsled sitting - scripts <&-"));
    let due = "acornsled: the sheet on standard input cannot be read: Bad file descriptor (os error 9)\n";
    assert_eq!((status, table.as_str(), told.as_str()), (Some(2), "", due));
    let (status, table, told) = ran(&mut room.shell("echo x | acornsled sitting - scripts"));
    assert_eq!((status, table.as_str()), (Some(1), ""));
    assert!(told.starts_with("acornsled: the sheet on standard input: refused with 2 at line 1"), "{told}");
}

#[test]
fn a_folder_that_cannot_be_listed_is_told() {
    let room = room("unlisted");
    let due = "acornsled: the folder none cannot be listed: No such file or directory (os error 2)\n";
    assert_eq!(ran(&mut room.sitting(&["sheet", "none"])), (Some(2), String::new(), due.into()));
    let due = "acornsled: the folder sheet cannot be listed: Not a directory (os error 20)\n";
    assert_eq!(ran(&mut room.sitting(&["sheet", "sheet"])), (Some(2), String::new(), due.into()));
}

/// The sheet may come from a program.
#[test]
fn a_sheet_may_come_by_a_pipe() {
    let room = room("piped-sheet");
    for sheet in ["-", "/dev/stdin"] {
        let (status, table, _) =
            ran(&mut room.shell(&format!("cat sheet | acornsled sitting --no-header {sheet} scripts")));
        assert_eq!((status, table.as_str()), (Some(0), "one,equal,,,,,\n"));
    }
}

/// A device that takes no byte stands for a full disk; a pipe whose reader is gone takes none either.
#[test]
fn a_table_that_cannot_be_written_is_told() {
    let room = room("unwritten");
    let begin = "acornsled: the answer cannot be written to standard output: ";
    let full = File::options().write(true).open("/dev/full").expect("there is a full device");
    let (status, _, told) = ran(room.sitting(&["sheet", "scripts"]).stdout(full));
    assert_eq!((status, told), (Some(2), format!("{begin}No space left on device (os error 28)\n")));
    let (status, _, told) = ran(&mut room.shell("acornsled sitting sheet scripts >&-"));
    assert_eq!((status, told), (Some(2), format!("{begin}Bad file descriptor (os error 9)\n")));
    let (reader, writer) = std::io::pipe().expect("a pipe can be made");
    drop(reader);
    let (status, _, told) = ran(room.sitting(&["sheet", "scripts"]).stdout(Stdio::from(writer)));
    assert_eq!((status, told), (Some(2), format!("{begin}Broken pipe (os error 32)\n")));
}

/// A disk that is full after a while: what was written is not taken for the table.
#[test]
fn a_table_that_is_cut_off_is_told() {
    let room = room("cut-off");
    let lines = "i=0; while [ $i -lt 40 ]; do echo one; i=$((i + 1)); done > names\n\
        ulimit -f 1\n\
        acornsled sitting --folder scripts --list sheet < names > table.csv";
    let (status, _, told) = ran(&mut room.shell(lines));
    let due = "acornsled: the answer cannot be written to standard output: File too large (os error 27)\n";
    assert_eq!((status, told.as_str()), (Some(2), due));
}

/// Where nobody is told, the table is whole still.
#[test]
fn standard_error_may_be_closed() {
    let room = room("untold");
    let (status, table, _) = ran(&mut room.shell("acornsled sitting --no-header sheet scripts 2>&-"));
    assert_eq!((status, table.as_str()), (Some(0), "one,equal,,,,,\n"));
    let (status, table, _) = ran(&mut room.shell("acornsled sitting --no-header sheet scripts 2>/dev/full"));
    assert_eq!((status, table.as_str()), (Some(0), "one,equal,,,,,\n"));
}
