//! Whole numbers of any length. They are held and compared as numerals, so that none is too long.

use std::cmp::Ordering;
use std::fmt;

/// The digits, without leading zeros; zero is `0`.
#[derive(Clone, PartialEq, Eq, Debug)]
pub struct Decimal {
    digits: String,
}

impl Decimal {
    /// The number that the digits among these bytes spell, 0 where there are none. Leading zeros and other bytes are
    /// passed over: that they may not stand there is seen when the number is spelled again.
    pub fn among(bytes: &[u8]) -> Decimal {
        let digits = bytes.iter().filter(|byte| byte.is_ascii_digit());
        let mut digits: String = digits.skip_while(|&&digit| digit == b'0').map(|&digit| char::from(digit)).collect();
        if digits.is_empty() {
            digits.push('0');
        }
        Decimal { digits }
    }

    /// The number as a word, if it lies between these limits. One that fits no word is past every limit.
    pub fn within(&self, least: i64, most: i64) -> Option<i64> {
        let value = self.digits.parse().ok()?;
        (least..=most).contains(&value).then_some(value)
    }

    pub fn is_zero(&self) -> bool {
        self.digits == "0"
    }
}

/// Without leading zeros the longer numeral is the larger one, and of two that are as long the first digit decides in
/// which they differ.
impl Ord for Decimal {
    fn cmp(&self, other: &Decimal) -> Ordering {
        let length = self.digits.len().cmp(&other.digits.len());
        length.then_with(|| self.digits.cmp(&other.digits))
    }
}

impl PartialOrd for Decimal {
    fn partial_cmp(&self, other: &Decimal) -> Option<Ordering> {
        Some(self.cmp(other))
    }
}

impl fmt::Display for Decimal {
    fn fmt(&self, f: &mut fmt::Formatter) -> fmt::Result {
        f.write_str(&self.digits)
    }
}
