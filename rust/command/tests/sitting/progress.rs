//! The progress of a long sitting. How many scripts make one long depends on the machine, so that their number is doubled
//! until it is.

use crate::room::Room;
use std::fmt::Write;
use std::process::Output;
use std::time::{Duration, Instant};

/// A text with a rule at each of its 2,048 places.
fn dense() -> String {
    let mut text = String::from("quantities=32\nhidden=\nrules=2048\n");
    let mut rule = |terms: &str| writeln!(text, "rule={terms}:1000000000").expect("a string takes all text");
    for q in 1..=32 {
        rule(&format!("+{q}"));
        rule(&format!("-{q}"));
        for p in 1..q {
            ["+", "-"].iter().for_each(|a| ["+", "-"].iter().for_each(|b| rule(&format!("{a}{p}{b}{q}"))));
        }
    }
    text
}

const SITTING: &str = "acornsled sitting --folder scripts --list sheet < names > table.csv";

/// Holds sittings of one script listed more and more often, until progress is found in what one of them tells, which takes
/// a second; answers the number of scripts, what is found, and how long it took.
fn until<T>(room: &Room, command: &str, found: impl Fn(Output, usize) -> Option<T>) -> (usize, T, Duration) {
    room.put("sheet", dense().as_bytes());
    room.hand_in("dense", dense().as_bytes());
    let mut count = 64;
    loop {
        room.put("names", "dense\n".repeat(count).as_bytes());
        let began = Instant::now();
        let output = room.shell(command).env("SHELL", "/bin/sh").output().expect("the command runs");
        let lasted = began.elapsed();
        if let Some(found) = found(output, count) {
            assert!(lasted >= Duration::from_secs(1), "it is told after {lasted:?}");
            return (count, found, lasted);
        }
        assert!(lasted < Duration::from_secs(10), "nothing is told in {lasted:?}");
        count *= 2;
    }
}

/// The number of scripts that are marked, of a line that tells the progress.
fn marked(line: &str, count: usize) -> usize {
    let told =
        line.strip_prefix("acornsled: ").and_then(|line| line.strip_suffix(&format!(" of {count} scripts marked")));
    told.unwrap_or_else(|| panic!("{line:?} tells no progress")).parse().expect("a number is told")
}

/// What is told before the summary, which is as it should be.
fn before_summary(told: Vec<u8>, count: usize) -> String {
    let told = String::from_utf8(told).expect("it is UTF-8").replace("\r\n", "\n");
    let summary = format!("acornsled: {count} scripts: {count} equal, 0 loose, 0 tight, 0 refused\n");
    told.strip_suffix(&summary).unwrap_or_else(|| panic!("{told:?} has no summary")).to_string()
}

/// One line after a second, and another one every ten seconds.
#[test]
fn a_long_sitting_tells_how_far_it_is() {
    let room = Room::new("progress");
    let found = |output: Output, count| Some(before_summary(output.stderr, count)).filter(|told| !told.is_empty());
    let (count, told, lasted) = until(&room, SITTING, found);
    let most = 1 + lasted.as_secs() as usize / 10;
    assert!((1..=most).contains(&told.lines().count()), "{told} in {lasted:?}");
    assert!(told.lines().all(|line| marked(line, count) <= count), "{told}");
}

/// There a line is rewritten in place, and is gone at the end. `script` lends a terminal and prints what it shows.
#[test]
fn at_a_terminal_one_line_is_rewritten() {
    let room = Room::new("terminal");
    let found = |output: Output, count| Some(before_summary(output.stdout, count)).filter(|told| told.len() > 200);
    let (count, told, _) = until(&room, &format!("script -qec '{SITTING}' /dev/null"), found);
    assert!(!told.contains('\n'), "{told:?}");
    let (lines, blanks) = told.strip_suffix('\r').and_then(|told| told.rsplit_once('\r')).expect("it is on the left");
    let lines: Vec<&str> = lines.strip_prefix('\r').expect("it begins on the left").split('\r').collect();
    assert!(lines.iter().map(|line| marked(line, count)).is_sorted(), "{lines:?}");
    assert_eq!(blanks, " ".repeat(lines[lines.len() - 1].len()));
}
