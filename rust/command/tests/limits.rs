//! The command under limits that the shell or the environment sets.

mod ordinary;
mod room;

use room::{acornsled, ran, shell, Ran, Room, SHEET};
use std::fs;
use std::path::PathBuf;

const SCRIPT: &str = "quantities=3\nhidden=2\nrules=1\nrule=+1:3\n";
const VERDICT: &str = "verdict=loose\nrule=+1+3:5\nvalues=3,0,3\n";

fn papers(room: &Room) -> [PathBuf; 2] {
    [room.file("sheet", SHEET), room.file("script", SCRIPT)]
}

/// A limit on the size of files is a full disk; the command is not ended by the signal, which would be silent.
#[test]
fn a_limit_on_the_size_of_files_is_told() {
    let room = Room::new("file-size");
    let [sheet, _] = papers(&room);
    let got = ran(&mut shell("ulimit -f 0; \"$0\" key \"$1\" > \"$2\"", [sheet, room.at("output")]));
    let told = "acornsled: the answer cannot be written to standard output: File too large (os error 27)\n";
    assert_eq!(got, Ran { status: Some(2), output: String::new(), told: told.into() });
}

#[test]
fn a_small_stack_is_enough() {
    let room = Room::new("stack");
    let [sheet, script] = papers(&room);
    let got = ran(&mut shell("ulimit -s 64; exec \"$0\" mark \"$1\" \"$2\"", [sheet, script]));
    assert_eq!(got, Ran { status: Some(0), output: VERDICT.into(), told: String::new() });
}

/// What std would give the threads is not theirs.
#[test]
fn the_stacks_of_threads_are_not_the_environments() {
    let room = Room::new("threads");
    let [sheet, script] = papers(&room);
    let scripts = vec![script; 64];
    for size in ["1", "0", "x"] {
        let mut command = acornsled(["sitting", "--no-header", "--scripts"]);
        let got = ran(command.arg(&sheet).args(&scripts).env("RUST_MIN_STACK", size));
        assert_eq!(got.status, Some(0), "{}", got.told);
        assert_eq!(got.output.matches(",loose,").count(), scripts.len());
    }
}

#[test]
fn a_user_who_may_start_no_thread_is_served() {
    let room = Room::new("processes");
    papers(&room);
    fs::create_dir(room.at("scripts")).expect("a folder can be made");
    (0..8).for_each(|number| drop(room.file(format!("scripts/{number}"), SCRIPT)));
    let at = room.at("");
    let Some(mut mark) = ordinary::shell(&at, "ulimit -u 1; exec \"$0\" mark sheet script") else {
        return;
    };
    assert_eq!(ran(&mut mark), Ran { status: Some(0), output: VERDICT.into(), told: String::new() });
    let sitting = ordinary::shell(&at, "ulimit -u 1; exec \"$0\" sitting sheet scripts");
    let got = ran(&mut sitting.expect("it was tried before"));
    assert_eq!((got.status, got.output.matches(",loose,").count()), (Some(0), 8), "{}", got.told);
}
