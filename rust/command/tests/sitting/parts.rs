//! Tables of parts, put together, against the table of the whole: by the command's own parts, and by the programs that
//! spread commands over cores and machines.

use crate::room::{ran, Room, AS_EMPTY, AS_EQUAL, AS_LOOSE, AS_TIGHT, EQUAL, HEADER, LOOSE, SHEET, TIGHT};
use std::fs;
use std::process::Command;

/// Names that a shell, a list or an option's reader might take apart, in the order of their bytes.
const ODD: [&[u8]; 14] = [
    b"\n", b" a  b ", b"#", b"$HOME", b"'", b"*", b"--help", b"`id`", b"a\nb", b"a\"b\"", b"a\\b", b"a;b|c&d", b"{}",
    b"\xff",
];

/// A folder of so many scripts of all kinds, besides those with odd names.
fn room(test: &str, count: usize) -> Room {
    let room = Room::new(test);
    let texts = [EQUAL, LOOSE, TIGHT, SHEET, b""];
    for number in 0..count {
        room.hand_in(format!("s{number:03}"), texts[number * number % 7 % texts.len()]);
    }
    ODD.iter().for_each(|name| room.hand_in(name, TIGHT));
    room
}

fn whole(room: &Room) -> String {
    let (status, table, _) = ran(&mut room.sitting(&["sheet", "scripts"]));
    assert_eq!(status, Some(0));
    table
}

/// What stands in the file `table.csv` after these lines of the shell, all of which must do well.
fn by_shell(room: &Room, lines: &str) -> String {
    let (status, _, told) = ran(&mut room.shell(&format!("set -e\n{lines}")));
    assert_eq!(status, Some(0), "{told}");
    let table = crate::room::plain(&fs::read(room.at("table.csv")).expect("there is a table"));
    fs::remove_file(room.at("table.csv")).expect("a file can be removed");
    table
}

/// Rows stated by hand, so that the whole is not only held against itself.
#[test]
fn five_hundred_scripts_in_parts_are_the_whole() {
    let room = Room::new("five-hundred");
    let texts = [EQUAL, LOOSE, TIGHT, SHEET, b""];
    let cells = [AS_EQUAL, AS_LOOSE, AS_TIGHT, ",,7,both,0,,", AS_EMPTY];
    let mut due = String::from(HEADER);
    for number in 0..500 {
        let (name, kind) = (format!("{number:03}"), number * number % 7 % texts.len());
        room.hand_in(&name, texts[kind]);
        due.push_str(&format!("{name}{}\n", cells[kind]));
    }
    assert_eq!(whole(&room), due);
    let parts = (1..=7).map(|part| ran(&mut room.sitting(&["--part", &format!("{part}/7"), "sheet", "scripts"])).1);
    assert_eq!(parts.collect::<String>(), due);
}

#[test]
fn parts_may_be_more_than_scripts() {
    let room = Room::new("more-parts");
    ["a", "b", "c"].iter().for_each(|name| room.hand_in(name, EQUAL));
    let part = |part: &str| ran(&mut room.sitting(&["--part", part, "sheet", "scripts"])).1;
    let row = |name: &str| format!("{name}{AS_EQUAL}\n");
    assert_eq!(["1/1"].map(part), [format!("{HEADER}{}{}{}", row("a"), row("b"), row("c"))]);
    assert_eq!(["01/02", "2/2"].map(part), [format!("{HEADER}{}", row("a")), row("b") + &row("c")]);
    let due = [HEADER.into(), row("a"), String::new(), row("b"), row("c")];
    assert_eq!(["1/5", "2/5", "3/5", "4/5", "5/5"].map(part), due);
    assert_eq!(part("18446744073709551615/18446744073709551615"), row("c"));
    let (_, table, _) = ran(&mut room.sitting(&["--no-header", "--part", "1/2", "sheet", "scripts"]));
    assert_eq!(table, row("a"));
}

/// The names as a list, each ended by byte 0, in the order of their bytes.
const NAMES: &str = "find scripts -mindepth 1 -maxdepth 1 -printf '%f\\0' | LC_ALL=C sort -z > names\n";

#[test]
fn a_list_of_the_folder_is_the_folder() {
    let room = room("lists", 20);
    let due = whole(&room);
    assert_eq!(
        by_shell(&room, &format!("{NAMES}acornsled sitting --folder scripts --list0 sheet < names > table.csv")),
        due
    );
    let part = "acornsled sitting --folder scripts --part $part/4 --list0 sheet < names >> table.csv";
    assert_eq!(by_shell(&room, &format!("{NAMES}for part in 1 2 3 4; do {part}; done")), due);
}

#[test]
fn xargs_spreads_a_sitting() {
    let room = room("xargs", 60);
    let due = whole(&room);
    let parts = "mkdir parts && seq -w 16 | \
        xargs -P 4 -I{} sh -c 'acornsled sitting --part {}/16 sheet scripts > parts/{}' && cat parts/* > table.csv";
    assert_eq!(by_shell(&room, parts), due);
    // one after the other, as the rows are in the order in which the commands end
    let names = "acornsled sitting --scripts sheet > table.csv\n\
        xargs -0 -n 7 acornsled sitting --no-header --folder scripts --scripts sheet < names >> table.csv";
    assert_eq!(by_shell(&room, &format!("{NAMES}{names}")), due);
    // a part that fails is not put together with the others
    let lost = "mkdir others && seq -w 4 | \
        xargs -P 4 -I{} sh -c 'acornsled sitting --part {}/3 sheet scripts > others/{}' && cat others/* > table.csv";
    let (status, _, told) = ran(&mut room.shell(lost));
    assert_eq!(status, Some(123), "{told}");
    assert!(!room.at("table.csv").exists());
}

/// Debian's package `parallel`. Where it is not installed there is nothing to try.
#[test]
fn gnu_parallel_spreads_a_sitting() {
    if !Command::new("parallel")
        .arg("--version")
        .output()
        .is_ok_and(|output| output.stdout.starts_with(b"GNU parallel"))
    {
        eprintln!("there is no GNU parallel; it is not tried");
        return;
    }
    let room = room("parallel", 60);
    let due = whole(&room);
    let parts = "parallel -k acornsled sitting --part {}/16 sheet scripts ::: $(seq 16) > table.csv";
    assert_eq!(by_shell(&room, parts), due);
    let header = "acornsled sitting --scripts sheet > table.csv\n";
    let names =
        "parallel -0 -k -X acornsled sitting --no-header --folder scripts --scripts sheet {} < names >> table.csv";
    assert_eq!(by_shell(&room, &format!("{NAMES}{header}{names}")), due);
    let lists = "parallel -k --pipe --block 100 --recend '\\0' \
        acornsled sitting --no-header --folder scripts --list0 sheet < names >> table.csv";
    assert_eq!(by_shell(&room, &format!("{NAMES}{header}{lists}")), due);
    // what ssh would run on two other machines that share the folder, run here; parallel relies on the shell that sshd names
    room.put(
        "ssh",
        b"#!/bin/sh\necho \"$1\" >> hosts\nshift\n[ \"$1\" != -- ] || shift\nexec env SHELL=/bin/sh sh -c \"$*\"\n",
    );
    let hosts = "chmod +x ssh; export PARALLEL_SSH=\"$PWD/ssh\"\n\
        parallel -k -j 1 --sshlogin one,two --workdir . acornsled sitting --part {}/16 sheet scripts ::: $(seq 16) > table.csv\n";
    assert_eq!(by_shell(&room, hosts), due);
    let hosts = fs::read_to_string(room.at("hosts")).expect("both machines were asked");
    assert!(hosts.contains("one\n") && hosts.contains("two\n"), "{hosts}");
}
