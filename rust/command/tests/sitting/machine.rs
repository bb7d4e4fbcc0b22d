//! Faults of the machine, for which no script is to answer.

use crate::ordinary;
use crate::room::{ran, Room, AS_EQUAL, EQUAL, HEADER, LOOSE};
use std::fs::{self, Permissions};
use std::os::unix::fs::{symlink, PermissionsExt};

const NO_TABLE: &str = "acornsled: there is no table, for the script is not at fault\n";

/// The limit is set when the command has come to its sheet, a pipe here, for before that it needs files itself.
#[test]
fn too_many_open_files_are_no_fault_of_a_script() {
    let room = Room::new("open-files");
    room.hand_in("equal", EQUAL);
    room.hand_in("loose", LOOSE);
    let lines = "mkfifo pipe; printf 'gone\\nequal\\nloose\\n' > names\n\
        acornsled sitting --folder scripts --list pipe < names &\n\
        exec 3> pipe\n\
        prlimit --pid $! --nofile=3\n\
        cat sheet >&3; exec 3>&-; wait $!";
    let told = format!("acornsled: the script \"equal\" cannot be read: Too many open files (os error 24)\n{NO_TABLE}");
    assert_eq!(ran(&mut room.shell(lines)), (Some(2), String::new(), told));
}

/// Under a limit as low as programs can be started with, the table is right or there is none.
#[test]
fn few_open_files_change_no_row() {
    let room = Room::new("few-files");
    let names: Vec<String> = (0..500).map(|number| format!("{number:03}")).collect();
    names.iter().for_each(|name| room.hand_in(name, EQUAL));
    let rows: String = names.iter().map(|name| format!("{name}{AS_EQUAL}\n")).collect();
    let (status, table, told) = ran(&mut room.shell("ulimit -n 4; acornsled sitting sheet scripts"));
    let due = if status == Some(0) { format!("{HEADER}{rows}") } else { String::new() };
    assert_eq!(table, due);
    assert!(status == Some(0) || (status == Some(2) && told.ends_with(NO_TABLE)), "{status:?}: {told}");
}

/// The first bytes of a process are at no address, and reading them fails as on a disk that is damaged.
#[test]
fn an_error_of_reading_is_no_fault_of_a_script() {
    let room = Room::new("damaged-disk");
    ["a", "c"].iter().for_each(|name| room.hand_in(name, EQUAL));
    symlink("/proc/self/mem", room.script("b")).expect("a link can be made");
    let told = format!("acornsled: the script \"b\" cannot be read: Input/output error (os error 5)\n{NO_TABLE}");
    assert_eq!(ran(&mut room.sitting(&["sheet", "scripts"])), (Some(2), String::new(), told));
}

/// Names that no file can have are the fault of whoever names them.
#[test]
fn names_that_cannot_be_looked_up_are_unread() {
    let room = Room::new("no-names");
    let long = "x".repeat(256);
    let (status, _, told) = ran(&mut room.sitting(&["--scripts", "sheet", "sheet/below", &long]));
    let due = format!(
        "acornsled: 2 scripts could not be read and got the row of an empty text:\n\
         acornsled:   \"sheet/below\": Not a directory (os error 20)\n\
         acornsled:   \"{long}\": File name too long (os error 36)\n\
         acornsled: 2 scripts: 0 equal, 0 loose, 0 tight, 2 refused\n"
    );
    assert_eq!((status, told), (Some(0), due));
}

/// Its names are known, and every one of them would count as an empty text.
#[test]
fn a_folder_that_may_be_listed_and_not_entered_is_told() {
    let room = Room::new("not-entered");
    room.hand_in("equal", EQUAL);
    let allow = |mode| fs::set_permissions(room.at("scripts"), Permissions::from_mode(mode)).expect("it can be set");
    allow(0o444);
    for papers in ["sheet scripts", "--folder scripts --scripts sheet equal"] {
        let Some(mut command) = ordinary::shell(&room.at(""), &format!("exec \"$0\" sitting {papers}")) else {
            break;
        };
        let told = "acornsled: the folder scripts cannot be entered: Permission denied (os error 13)\n";
        assert_eq!(ran(&mut command), (Some(2), String::new(), told.into()));
    }
    // so that it can be removed
    allow(0o755);
}
