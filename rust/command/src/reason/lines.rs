//! A text cut into lines.

use super::form;
use super::hidden::Hidden;

/// The lines of a text, numbered from 1.
pub struct Lines<'a> {
    pub text: &'a [u8],
    ended: Vec<&'a [u8]>,
    /// what stands behind the last byte 10
    rest: &'a [u8],
}

/// What stands where a line with some number is due.
pub enum Found<'a> {
    /// without the byte 10 that ends it
    Ended(&'a [u8]),
    /// the last line, which has no byte 10
    Unended(&'a [u8]),
    /// the text has ended before
    Missing,
}

impl<'a> Lines<'a> {
    pub fn of(text: &'a [u8]) -> Lines<'a> {
        let mut ended: Vec<&[u8]> = text.split(|&byte| byte == b'\n').collect();
        let rest = ended.pop().unwrap_or_default();
        Lines { text, ended, rest }
    }

    pub fn at(&self, number: usize) -> Found<'a> {
        let place = number.saturating_sub(1);
        match self.ended.get(place) {
            Some(line) => Found::Ended(line),
            None if place == self.ended.len() && !self.rest.is_empty() => Found::Unended(self.rest),
            None => Found::Missing,
        }
    }

    /// The bytes of a line, none where it is missing.
    pub fn bytes(&self, number: usize) -> &'a [u8] {
        match self.at(number) {
            Found::Ended(line) | Found::Unended(line) => line,
            Found::Missing => &[],
        }
    }

    /// How many lines there are, one without its end included.
    pub fn count(&self) -> usize {
        self.ended.len() + usize::from(!self.rest.is_empty())
    }

    /// The number n that line 1 says.
    pub fn quantities(&self) -> Option<usize> {
        form::count(self.bytes(1), "quantities=").ok()?.value()
    }

    /// The hidden quantities that line 2 lists.
    pub fn hidden(&self) -> Hidden {
        Hidden::of(self.bytes(2))
    }

    /// The number of rule lines that line 3 announces.
    pub fn announced(&self) -> Option<usize> {
        form::count(self.bytes(3), "rules=").ok()?.value()
    }
}
