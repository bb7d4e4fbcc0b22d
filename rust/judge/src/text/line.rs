//! A line taken for one of its kind, and the three lines of the header.
//!
//! A line is first taken for one of its kind, whatever bytes it has: numbers are read off where they would stand, and
//! what does not belong there is passed over. Then it is spelled again. It is well formed exactly when this gives its
//! own bytes: what is spelled is always well formed, and from a well-formed line all of it is read off. So no byte is
//! judged by itself, and a line that is malformed still tells which numbers stand on it.

use super::decimal::Decimal;
use crate::meaning::{MOST_QUANTITIES, MOST_RULES};
use std::collections::BTreeSet;
use std::fmt;

/// What the lines before say of a line's limits, and which paper it is on.
#[derive(Clone, Copy)]
pub struct Limits {
    /// the sheet's or the script's n
    pub n: usize,
    /// the largest magnitude of a bound
    pub bound: i64,
}

pub trait Line: fmt::Display {
    /// What lines of this kind are called where replies are counted.
    const NAME: &'static str;

    /// Takes what stands behind the first '=' for the value of such a line.
    fn read_off(value: &[u8]) -> Self;

    /// Is a number outside its limit?
    fn past_limit(&self, limits: Limits) -> bool;

    /// Does a quantity cancel itself?
    fn cancels(&self) -> bool {
        false
    }
}

pub struct Quantities(Decimal);

/// A set has one spelling, so that a list which does not increase is spelled otherwise.
pub struct Hidden(BTreeSet<Decimal>);

pub struct Rules(Decimal);

impl Quantities {
    /// The number, which was found within its limit.
    pub fn number(&self) -> usize {
        known(&self.0)
    }
}

impl Hidden {
    /// The set as a number, no quantity of it being past its limit.
    pub fn set(&self) -> u32 {
        self.0.iter().map(|q| 1 << (known(q) - 1)).sum()
    }
}

impl Rules {
    /// The number, which was found within its limit.
    pub fn number(&self) -> usize {
        known(&self.0)
    }
}

impl Line for Quantities {
    const NAME: &'static str = "quantities";

    fn read_off(value: &[u8]) -> Quantities {
        Quantities(Decimal::among(value))
    }

    fn past_limit(&self, _: Limits) -> bool {
        self.0.within(1, MOST_QUANTITIES as i64).is_none()
    }
}

impl Line for Hidden {
    const NAME: &'static str = "hidden";

    fn read_off(value: &[u8]) -> Hidden {
        if value.is_empty() {
            return Hidden(BTreeSet::new());
        }
        Hidden(value.split(|&byte| byte == b',').map(Decimal::among).collect())
    }

    fn past_limit(&self, limits: Limits) -> bool {
        self.0.iter().any(|q| q.within(1, limits.n as i64).is_none())
    }
}

impl Line for Rules {
    const NAME: &'static str = "rules";

    fn read_off(value: &[u8]) -> Rules {
        Rules(Decimal::among(value))
    }

    fn past_limit(&self, _: Limits) -> bool {
        self.0.within(0, MOST_RULES as i64).is_none()
    }
}

/// What stands before the first such byte and what stands behind it; all and nothing where there is none.
pub fn parted(bytes: &[u8], at: u8) -> (&[u8], &[u8]) {
    match bytes.iter().position(|&byte| byte == at) {
        Some(place) => (&bytes[..place], &bytes[place + 1..]),
        None => (bytes, &[]),
    }
}

/// A number that was found within its limit, as a word.
pub fn known(number: &Decimal) -> usize {
    number.within(0, i64::MAX).expect("the number was found within its limit") as usize
}

impl fmt::Display for Quantities {
    fn fmt(&self, f: &mut fmt::Formatter) -> fmt::Result {
        write!(f, "quantities={}", self.0)
    }
}

impl fmt::Display for Hidden {
    fn fmt(&self, f: &mut fmt::Formatter) -> fmt::Result {
        let list: Vec<String> = self.0.iter().map(Decimal::to_string).collect();
        write!(f, "hidden={}", list.join(","))
    }
}

impl fmt::Display for Rules {
    fn fmt(&self, f: &mut fmt::Formatter) -> fmt::Result {
        write!(f, "rules={}", self.0)
    }
}
