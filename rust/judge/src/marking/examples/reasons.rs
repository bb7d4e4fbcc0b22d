//! What is due of marking with reasons, stated by hand.

use super::stated::Said;
use crate::library::{BOTH, EQUAL, LOOSE, MISMATCH, NOTHING, NO_PAPER, SCRIPT, SHEET, TIGHT};
use crate::marking::reasons::Answer;

/// Two papers, how many words are lent for the integers, and the answer.
pub type Case = (Said, Said, usize, Answer);

const A: Said = ("3", "2", &["+1+2:5", "+1-2:2", "+3-2:0"]);
/// Only a half would fit.
const NOTHING_ALLOWED: Said = ("1", "", &["+1+1:1", "-1-1:-1"]);
const FAR: Said = ("3", "2", &["+1-2:1000000000", "+2-3:1000000000"]);

/// An equal script of a sheet of n quantities.
const fn equal(n: usize) -> Answer {
    Answer { number: EQUAL, paper: NO_PAPER, value: 0, quantities: Some(n), rule: None }
}

const fn shown(number: u32, n: usize, rule: [i64; 3]) -> Answer {
    Answer { number, paper: NO_PAPER, value: 0, quantities: Some(n), rule: Some(rule) }
}

const fn refused(number: u32, paper: u32, value: usize) -> Answer {
    Answer { number, paper, value, quantities: None, rule: None }
}

pub const REASONS: [Case; 32] = [
    // document 01's sheet A
    (A, ("3", "2", &["+1+1:7", "+1+3:5"]), 3, equal(3)),
    (A, ("3", "2", &["+1:3"]), 3, shown(LOOSE, 3, [1, 3, 5])),
    (A, ("3", "2", &["+1:2", "+1+3:5"]), 3, shown(TIGHT, 3, [1, 0, 2])),
    (A, ("3", "2", &["+1:2"]), 3, shown(LOOSE, 3, [1, 3, 5])),
    (A, ("3", "2", &[]), 32, shown(LOOSE, 3, [1, 0, 3])),
    // by place and not by line, a doubled term halved
    (A, ("3", "2", &["+3+1:4", "+1+1:5"]), 4, shown(TIGHT, 3, [1, 0, 2])),
    (("2", "", &[]), ("2", "", &["+2-1:0"]), 2, shown(TIGHT, 2, [-1, 2, 0])),
    (("2", "", &["-2-1:-4"]), ("2", "", &[]), 2, shown(LOOSE, 2, [-1, -2, -4])),
    // the key's bound is past a sheet's limit, and at a script's
    (FAR, ("3", "2", &[]), 3, shown(LOOSE, 3, [1, -3, 2_000_000_000])),
    (FAR, ("3", "2", &["+1-3:2000000000"]), 3, equal(3)),
    (FAR, ("3", "2", &["+1-3:1999999999"]), 3, shown(TIGHT, 3, [1, -3, 1_999_999_999])),
    (FAR, ("3", "2", &["+1-3:2000000000", "-3-3:-2000000000"]), 3, shown(TIGHT, 3, [-3, 0, -1_000_000_000])),
    (FAR, ("3", "2", &["+1-3:2000000001"]), 3, refused(3, SCRIPT, 4)),
    (FAR, ("3", "2", &["+1-3:2000000000", "+1-1:2000000000"]), 3, refused(4, SCRIPT, 5)),
    (FAR, ("3", "", &["+1-3:2000000000"]), 0, refused(3, SCRIPT, 4)),
    (FAR, ("3", "1,2", &["+3:4000000000"]), 3, refused(MISMATCH, BOTH, 0)),
    (FAR, ("3", "1,2", &["+3:0", "+3:-4000000001"]), 3, refused(3, SCRIPT, 5)),
    // the sheet allows nothing
    (NOTHING_ALLOWED, ("1", "", &[]), 1, shown(LOOSE, 1, NOTHING)),
    (("1", "1", &["+1:3", "-1:-4"]), ("1", "1", &[]), 1, shown(LOOSE, 1, NOTHING)),
    (NOTHING_ALLOWED, ("1", "", &["+1:0", "-1:-1"]), 1, equal(1)),
    // too few words, whatever the verdict
    (A, ("3", "2", &["+1+1:7", "+1+3:5"]), 2, refused(6, BOTH, 3)),
    (A, ("3", "2", &["+1:3"]), 0, refused(6, BOTH, 3)),
    (("1", "1", &[]), ("1", "1", &[]), 0, refused(6, BOTH, 1)),
    (("32", "", &[]), ("32", "", &[]), 31, refused(6, BOTH, 32)),
    // before the papers are compared, by the sheet's n
    (A, ("4", "2", &[]), 2, refused(6, BOTH, 3)),
    (A, ("4", "2", &[]), 3, refused(MISMATCH, BOTH, 0)),
    (A, ("2", "2", &[]), 2, refused(6, BOTH, 3)),
    (A, ("3", "2", &["+2:0"]), 3, refused(MISMATCH, BOTH, 0)),
    // and after both are read
    (A, ("3", "2", &["+1:3", "+1-1:0"]), 0, refused(4, SCRIPT, 5)),
    (A, ("33", "", &[]), 0, refused(3, SCRIPT, 1)),
    (("33", "", &[]), ("01", "", &[]), 0, refused(3, SHEET, 1)),
    (("3", "3,2", &[]), ("3", "2", &[]), 3, refused(2, SHEET, 2)),
];
