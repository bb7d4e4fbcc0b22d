//! A line read from its beginning, up to the first byte that does not belong.

use super::cause;
use super::divided::{self, Number};
use super::fault::Fault;
use super::key;

/// A numeral as it stands in a line.
#[derive(Clone, Copy, PartialEq, Eq, Debug)]
pub struct Numeral<'a> {
    pub at: usize,
    pub digits: &'a [u8],
}

impl Numeral<'_> {
    /// Its number, if that fits.
    pub fn value(&self) -> Option<usize> {
        std::str::from_utf8(self.digits).ok()?.parse().ok()
    }

    /// Whether its number is one of `least` to `most`; one that does not fit is past every limit.
    pub fn within(&self, least: usize, most: usize) -> bool {
        self.value().is_some_and(|value| (least..=most).contains(&value))
    }

    /// Its digits, not all of them where there are very many.
    pub fn shown(&self) -> String {
        let digits = String::from_utf8_lossy(self.digits);
        if digits.len() <= 24 {
            return digits.into_owned();
        }
        format!("{}... ({} digits)", &digits[..12], digits.len())
    }
}

pub struct Cursor<'a> {
    pub line: &'a [u8],
    pub at: usize,
}

impl<'a> Cursor<'a> {
    /// The cursor after the key that the line is due to begin with.
    pub fn after(line: &'a [u8], key: &'static str) -> Result<Cursor<'a>, Fault> {
        if line.starts_with(key.as_bytes()) {
            return Ok(Cursor { line, at: key.len() });
        }
        Err(key::fault(line, key))
    }

    /// The byte at the cursor, none at the end of the line.
    pub fn byte(&self) -> Option<u8> {
        self.line.get(self.at).copied()
    }

    /// A numeral without a sign and without leading zeros; `due` is what it is called.
    pub fn numeral(&mut self, due: &str) -> Result<Numeral<'a>, Fault> {
        let at = self.at;
        let rest = &self.line[at..];
        let digits = &rest[..rest.iter().take_while(|byte| byte.is_ascii_digit()).count()];
        if digits.is_empty() {
            return Err(cause::stray(self.line, at, due));
        }
        let zeros = digits[..digits.len() - 1].iter().take_while(|&&digit| digit == b'0').count();
        if zeros > 0 {
            let what = if zeros == 1 { "a leading zero" } else { "leading zeros" };
            return Err(Fault::new(at, zeros, format!("{what}: numbers are written without, and zero as 0")));
        }
        self.at += digits.len();
        Ok(Numeral { at, digits })
    }

    /// The end of the line after such a number; `due` is what may stand here.
    pub fn end(&self, number: Number, due: &str) -> Result<(), Fault> {
        if self.at == self.line.len() {
            return Ok(());
        }
        Err(self.after_number(number, due))
    }

    /// The fault of what follows such a number where `due` may stand.
    pub fn after_number(&self, number: Number, due: &str) -> Fault {
        divided::fault(self.line, self.at, number, due).unwrap_or_else(|| cause::stray(self.line, self.at, due))
    }
}
