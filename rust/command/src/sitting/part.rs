//! The parts in which a sitting can be held.

use std::ffi::OsStr;
use std::ops::Range;

/// A part of a list, by its number from 1 on and the number of all parts.
#[derive(Clone, Copy, PartialEq, Eq, Debug)]
pub struct Part {
    number: usize,
    of: usize,
}

impl Part {
    /// The only part of one.
    pub const WHOLE: Part = Part { number: 1, of: 1 };

    /// The part that is written K/N, none where K is not one of 1 to N. Leading zeros, as of `seq -w`, are taken.
    pub fn read(text: &OsStr) -> Option<Part> {
        let (number, of) = text.to_str()?.split_once('/')?;
        let (number, of) = (numeral(number)?, numeral(of)?);
        (1..=of).contains(&number).then_some(Part { number, of })
    }

    pub fn is_first(self) -> bool {
        self.number == 1
    }

    /// Its places in a list of this length. The parts follow each other without gaps, so that their tables do too.
    pub fn share(self, length: usize) -> Range<usize> {
        // the product of two words fits; the quotient is at most the length
        let end = |part: usize| (length as u128 * part as u128 / self.of as u128) as usize;
        end(self.number - 1)..end(self.number)
    }
}

/// A number written in digits alone: `parse` would take a sign too.
fn numeral(text: &str) -> Option<usize> {
    text.bytes().all(|byte| byte.is_ascii_digit()).then(|| text.parse().ok())?
}
