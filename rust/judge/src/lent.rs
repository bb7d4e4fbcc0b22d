//! Memory lent to a call, with words around it that the call must not touch.

use crate::random::Random;

/// Words, or bytes, on either side. A call that takes one quantity too many writes a block too far: 4q - 2 words for
/// quantity q, 130 for a 33rd; a line too many is some 30 bytes. That and a count wrong by a few is seen; what is
/// written beyond the margin is not.
const MARGIN: usize = 256;

/// How many words are lent beyond those needed: none half of the time, so that a call that goes too far meets the
/// margin.
pub fn further(random: &mut Random) -> usize {
    random.pick(&[0, 0, 1, 9])
}

/// Words of a table or bytes of a text.
pub struct Lent<T = i64> {
    words: Vec<T>,
    /// the same words before the call
    before: Vec<T>,
}

impl Lent {
    /// Lends these words, between margins of any content.
    pub fn new(content: &[i64], random: &mut Random) -> Lent {
        Lent::between(random.words(MARGIN), content, random.words(MARGIN))
    }
}

impl Lent<u8> {
    /// Lends these bytes, between margins of any content.
    pub fn bytes(content: &[u8], random: &mut Random) -> Lent<u8> {
        Lent::between(random.bytes(MARGIN), content, random.bytes(MARGIN))
    }

    /// Lends a text. Half of the time a byte 10 stands behind it, which would end its last line if it were looked at.
    pub fn text(content: &[u8], random: &mut Random) -> Lent<u8> {
        let mut behind = random.bytes(MARGIN);
        if random.chance(50) {
            behind[0] = b'\n';
        }
        Lent::between(random.bytes(MARGIN), content, behind)
    }
}

impl<T: Copy + PartialEq> Lent<T> {
    fn between(left: Vec<T>, content: &[T], right: Vec<T>) -> Lent<T> {
        let words = [&left, content, &right].concat();
        let before = words.clone();
        Lent { words, before }
    }

    /// What the call is given.
    pub fn slice(&mut self) -> &mut [T] {
        let end = self.words.len() - MARGIN;
        &mut self.words[MARGIN..end]
    }

    /// What the call has left.
    pub fn left(&self) -> &[T] {
        &self.words[MARGIN..self.words.len() - MARGIN]
    }

    /// Is each word but the first `free` lent ones what it was, the margins included?
    pub fn kept_but(&self, free: usize) -> bool {
        let rest = MARGIN + free;
        self.words[..MARGIN] == self.before[..MARGIN] && self.words[rest..] == self.before[rest..]
    }
}

/// Words on either side of what is lent alone, as a number that a call writes.
const BESIDE: usize = 8;

/// One thing lent to a call, with words right before and behind it.
#[repr(C)]
pub struct Around<T> {
    left: [i64; BESIDE],
    pub within: T,
    right: [i64; BESIDE],
    /// the words on either side before the call
    before: [[i64; BESIDE]; 2],
}

impl<T> Around<T> {
    pub fn new(within: T, random: &mut Random) -> Around<T> {
        let before = [(); 2].map(|_| [(); BESIDE].map(|_| random.word() as i64));
        Around { left: before[0], within, right: before[1], before }
    }

    /// Are the words around it what they were?
    pub fn kept(&self) -> bool {
        [self.left, self.right] == self.before
    }
}
