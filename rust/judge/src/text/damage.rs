//! Texts damaged in one way or several, first by lines, then by bytes. What is due of them is the reader's to say.

use super::damaged_bytes::DamagedBytes;
use super::damaged_lines::DamagedLines;
use super::paper::{joined, Paper};
use crate::random::Random;

pub fn damaged(paper: &Paper, random: &mut Random) -> Vec<u8> {
    let certain = random.below(DamagedLines::WAYS.len() + DamagedBytes::WAYS.len());
    let mut damaged = DamagedLines { paper, lines: paper.lines() };
    for (number, way) in DamagedLines::WAYS.iter().enumerate() {
        if number == certain || random.chance(3) {
            way(&mut damaged, random);
        }
    }
    let mut damaged = DamagedBytes { text: joined(&damaged.lines) };
    for (number, way) in DamagedBytes::WAYS.iter().enumerate() {
        let due = DamagedLines::WAYS.len() + number == certain || random.chance(2);
        // nothing is left to be damaged in an empty text
        if due && !damaged.text.is_empty() {
            way(&mut damaged, random);
        }
    }
    damaged.text
}

/// A text damaged in its bytes alone, in one way or two.
pub fn in_bytes(text: Vec<u8>, random: &mut Random) -> Vec<u8> {
    let mut damaged = DamagedBytes { text };
    for _ in 0..random.pick(&[1, 1, 2]) {
        if !damaged.text.is_empty() {
            random.pick(&DamagedBytes::WAYS)(&mut damaged, random);
        }
    }
    damaged.text
}
