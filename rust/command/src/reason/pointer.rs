//! A line with a pointer to some of its bytes. A long line is cut on both sides.

use crate::visible;

/// The most columns that are shown before the bytes, and in all.
const BEFORE: usize = 40;
const WIDTH: usize = 80;

/// The line in visible characters, and a line that points to `length` of its bytes from `at` on.
pub fn pointed(line: &[u8], at: usize, length: usize) -> (String, String) {
    let [mut before, mut marked, mut after] = [const { String::new() }; 3];
    for piece in visible::pieces(line) {
        let part = match piece.at {
            place if place < at => &mut before,
            place if place < at.saturating_add(length) => &mut marked,
            _ => &mut after,
        };
        part.push_str(&piece.shown);
    }
    if before.len() > BEFORE {
        before = format!("...{}", &before[before.len() - BEFORE..]);
    }
    let room = WIDTH - before.len();
    let width = marked.len().clamp(1, room);
    let mut rest = marked + &after;
    if rest.len() > room {
        rest.truncate(room);
        rest.push_str("...");
    }
    let pointer = format!("{}{}", " ".repeat(before.len()), "^".repeat(width));
    (before + &rest, pointer)
}
