//! What cannot be read as a script, or would be waited for.

use crate::room::{ran, Room, AS_EMPTY, AS_EQUAL, EQUAL, HEADER};
use std::fs::{self, File, Permissions};
use std::io::{Read, Write};
use std::os::unix::fs::{symlink, PermissionsExt};
use std::os::unix::net::UnixListener;
use std::process::Command;
use std::sync::atomic::{AtomicBool, Ordering::Relaxed};
use std::thread::{self, sleep};
use std::time::Duration;

fn pipe(room: &Room, name: &str) {
    let made = Command::new("mkfifo").arg(room.script(name)).status().expect("mkfifo runs");
    assert!(made.success());
}

#[test]
fn what_is_no_file_counts_as_an_empty_text() {
    let room = Room::new("no-files");
    fs::create_dir(room.script("folder")).expect("a folder can be made");
    room.hand_in("folder/equal", EQUAL);
    symlink("nowhere", room.script("link to nowhere")).expect("a link can be made");
    symlink("circle", room.script("circle")).expect("a link can be made");
    room.hand_in("equal", EQUAL);
    symlink("equal", room.script("link")).expect("a link can be made");
    symlink("folder", room.script("link to folder")).expect("a link can be made");
    let due = format!(
        "{HEADER}circle{AS_EMPTY}\nequal{AS_EQUAL}\nfolder{AS_EMPTY}\nlink{AS_EQUAL}\nlink to folder{AS_EMPTY}\n\
         link to nowhere{AS_EMPTY}\n"
    );
    let told = "acornsled: 4 scripts could not be read and got the row of an empty text:\n\
        acornsled:   \"circle\": Too many levels of symbolic links (os error 40)\n\
        acornsled:   \"folder\": it is a folder\n\
        acornsled:   \"link to folder\": it is a folder\n\
        acornsled:   \"link to nowhere\": No such file or directory (os error 2)\n\
        acornsled: 6 scripts: 2 equal, 0 loose, 0 tight, 4 refused\n";
    assert_eq!(ran(&mut room.sitting(&["sheet", "scripts"])), (Some(0), due, told.into()));
}

#[test]
fn devices_are_not_read() {
    let room = Room::new("devices");
    for device in ["zero", "tty", "null"] {
        symlink(format!("/dev/{device}"), room.script(device)).expect("a link can be made");
    }
    let due = format!("{HEADER}null{AS_EMPTY}\ntty{AS_EMPTY}\nzero{AS_EMPTY}\n");
    let told = "acornsled: 3 scripts could not be read and got the row of an empty text:\n\
        acornsled:   \"null\": it is a device\n\
        acornsled:   \"tty\": it is a device\n\
        acornsled:   \"zero\": it is a device\n\
        acornsled: 3 scripts: 0 equal, 0 loose, 0 tight, 3 refused\n";
    assert_eq!(ran(&mut room.sitting(&["sheet", "scripts"])), (Some(0), due, told.into()));
}

/// To open a pipe without a writer would wait for one, and to read one whose writer says nothing would wait for its end. A
/// pipe that has something to read keeps it.
#[test]
fn pipes_and_sockets_are_neither_waited_for_nor_read() {
    let room = Room::new("pipes");
    ["no writer", "silent writer", "writer"].iter().for_each(|name| pipe(&room, name));
    // for reading and writing at once, so that nothing is waited for here
    let open =
        |name: &str| File::options().read(true).write(true).open(room.script(name)).expect("a pipe can be opened");
    let (_silent, mut writer) = (open("silent writer"), open("writer"));
    writer.write_all(EQUAL).expect("a pipe holds a few bytes");
    let _socket = UnixListener::bind(room.script("socket")).expect("a socket can be made");
    let due = format!("{HEADER}no writer{AS_EMPTY}\nsilent writer{AS_EMPTY}\nsocket{AS_EMPTY}\nwriter{AS_EMPTY}\n");
    let told = "acornsled: 4 scripts could not be read and got the row of an empty text:\n\
        acornsled:   \"no writer\": it is a named pipe\n\
        acornsled:   \"silent writer\": it is a named pipe\n\
        acornsled:   \"socket\": it is a socket\n\
        acornsled:   \"writer\": it is a named pipe\n\
        acornsled: 4 scripts: 0 equal, 0 loose, 0 tight, 4 refused\n";
    assert_eq!(ran(&mut room.sitting(&["sheet", "scripts"])), (Some(0), due, told.into()));
    let mut held = vec![0; EQUAL.len()];
    writer.read_exact(&mut held).expect("the pipe holds them still");
    assert_eq!(held, EQUAL);
}

/// Whoever waits for a reader of a pipe would go on, and lose what is written, were the pipe only opened.
#[test]
fn pipes_are_not_even_opened() {
    let room = Room::new("waiting");
    pipe(&room, "pipe");
    let mut writer = room.shell("exec echo > scripts/pipe").spawn().expect("a shell runs");
    // time for the shell to come to its pipe; were it too short, nothing would be seen here
    sleep(Duration::from_millis(300));
    let (status, table, _) = ran(&mut room.sitting(&["--no-header", "sheet", "scripts"]));
    assert_eq!((status, table), (Some(0), format!("pipe{AS_EMPTY}\n")));
    sleep(Duration::from_millis(100));
    let waits = writer.try_wait().expect("the shell can be asked about").is_none();
    let mut held = String::new();
    if waits {
        // which ends it
        File::open(room.script("pipe"))
            .and_then(|mut pipe| pipe.read_to_string(&mut held))
            .expect("a pipe can be read");
    }
    writer.wait().expect("the shell ends");
    assert_eq!((waits, held.as_str()), (true, "\n"));
}

/// Between a look at what stands by a name and its opening, something else may get the name.
#[test]
fn a_file_that_becomes_a_pipe_is_not_waited_for() {
    const COUNT: usize = 300;
    let room = Room::new("swapped");
    room.put("file", EQUAL);
    pipe(&room, "../pipe");
    room.put("names", "swapped\n".repeat(COUNT).as_bytes());
    let name = |at: &str| {
        symlink(room.at(at), room.at("next")).expect("a link can be made");
        fs::rename(room.at("next"), room.script("swapped")).expect("a link can be renamed");
    };
    name("file");
    let ended = AtomicBool::new(false);
    let (status, table, told) = thread::scope(|scope| {
        scope.spawn(|| {
            while !ended.load(Relaxed) {
                ["pipe", "file"].iter().for_each(|at| name(at));
            }
        });
        let got = ran(&mut room.shell("acornsled sitting --no-header --folder scripts --list sheet < names"));
        ended.store(true, Relaxed);
        got
    });
    assert_eq!(status, Some(0), "{told}");
    let rows = |cells: &str| table.matches(&format!("swapped{cells}\n")).count();
    let (equal, empty) = (rows(AS_EQUAL), rows(AS_EMPTY));
    assert_eq!(equal + empty, COUNT);
    // each time that it was a pipe is told
    assert!(empty == 0 || told.contains(&format!("acornsled: {empty} script")), "{told} for {empty}");
}

#[test]
fn a_locked_script_is_told() {
    let room = Room::new("locked");
    room.hand_in("locked", EQUAL);
    fs::set_permissions(room.script("locked"), Permissions::from_mode(0o000)).expect("a file can be locked");
    let (status, table, told) = ran(&mut room.sitting(&["--no-header", "sheet", "scripts"]));
    // for root no file is locked
    let (cells, due) = if File::open(room.script("locked")).is_ok() {
        (AS_EQUAL, "acornsled: 1 script: 1 equal, 0 loose, 0 tight, 0 refused\n")
    } else {
        let due = "acornsled: 1 script could not be read and got the row of an empty text:\n\
            acornsled:   \"locked\": Permission denied (os error 13)\n\
            acornsled: 1 script: 0 equal, 0 loose, 0 tight, 1 refused\n";
        (AS_EMPTY, due)
    };
    assert_eq!((status, table, told), (Some(0), format!("locked{cells}\n"), due.into()));
}

#[test]
fn of_many_only_the_first_are_named() {
    let room = Room::new("many-unread");
    (1..=7).for_each(|number| fs::create_dir(room.script(format!("{number}"))).expect("a folder can be made"));
    let (_, _, told) = ran(&mut room.sitting(&["sheet", "scripts"]));
    let due = "acornsled: 7 scripts could not be read and got the row of an empty text:\n\
        acornsled:   \"1\": it is a folder\nacornsled:   \"2\": it is a folder\nacornsled:   \"3\": it is a folder\n\
        acornsled:   \"4\": it is a folder\nacornsled:   \"5\": it is a folder\nacornsled:   and 2 more\n\
        acornsled: 7 scripts: 0 equal, 0 loose, 0 tight, 7 refused\n";
    assert_eq!(told, due);
}

/// A name may be meant to look like a message, or to steer the terminal.
#[test]
fn names_are_told_escaped() {
    let room = Room::new("escaped");
    fs::create_dir(room.script(b"x\nacornsled: all equal\x1b[2J\xff")).expect("a folder can be made");
    let (_, _, told) = ran(&mut room.sitting(&["sheet", "scripts"]));
    let due = "acornsled: 1 script could not be read and got the row of an empty text:\n\
        acornsled:   \"x\\\\nacornsled: all equal\\\\u{1b}[2J\\\\xff\": it is a folder\n\
        acornsled: 1 script: 0 equal, 0 loose, 0 tight, 1 refused\n";
    assert_eq!(told, due);
}
