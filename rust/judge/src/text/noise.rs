//! Texts that are no sheets at all, and texts near the largest size.

use super::paper::Paper;
use crate::meaning::MOST_BYTES;
use crate::random::Random;

/// Bytes, or pieces of texts, in no order.
pub fn any(random: &mut Random) -> Vec<u8> {
    let count = random.below(12);
    match random.below(3) {
        0 => random.bytes(count),
        1 => (0..count).map(|_| random.pick(b"quantitesrldh=+-,:0123456789\n\n\n")).collect(),
        _ => (0..count).flat_map(|_| random.pick(&PIECES)).copied().collect(),
    }
}

const PIECES: [&[u8]; 12] = [
    b"quantities=",
    b"hidden=",
    b"rules=",
    b"rule=",
    b"quantities=2\n",
    b"hidden=1\n",
    b"rules=1\n",
    b"rule=+1-2:3\n",
    b"1",
    b"0",
    b"+1",
    b"\n",
];

/// A text in which one byte is repeated until it has about the largest size: in a line, before its end, or behind all.
/// At the largest size the line decides, and one byte more is 1 whatever the lines are.
pub fn swollen(paper: &Paper, random: &mut Random) -> Vec<u8> {
    let mut text = paper.text();
    let ends: Vec<usize> = (0..text.len()).filter(|&at| text[at] == b'\n').collect();
    let rule = random.pick(&ends);
    let at = random.pick(&[ends[0], ends[1], ends[2], rule, text.len()]);
    let length = MOST_BYTES + random.pick(&[0, 0, 1, 1, 2, 30_000, MOST_BYTES]) - random.pick(&[0, 0, 0, 1]);
    let filling = vec![random.pick(b"0199,\n+: x"); length.saturating_sub(text.len())];
    text.splice(at..at, filling);
    text
}
