//! A line taken for a rule, as `line` says.

use super::decimal::Decimal;
use super::line::{known, parted, Limits, Line};
use super::written::Written;
use crate::meaning::Literal;
use std::fmt;

pub struct RuleLine {
    first: Signed,
    second: Option<Signed>,
    bound: Bound,
}

/// A quantity number behind a sign, which stands there also before a 0.
struct Signed {
    minus: bool,
    number: Decimal,
}

/// An integer, so that 0 has no sign.
struct Bound {
    minus: bool,
    magnitude: Decimal,
}

impl RuleLine {
    /// The rule, whose numbers were found within their limits.
    pub fn rule(&self) -> Written {
        let magnitude = known(&self.bound.magnitude) as i64;
        Written {
            first: self.first.literal(),
            second: self.second.as_ref().map(Signed::literal),
            bound: if self.bound.minus { -magnitude } else { magnitude },
        }
    }
}

impl Line for RuleLine {
    const NAME: &'static str = "rule";

    /// The first two signs begin the quantities. What stands before them is lost, and further signs are.
    fn read_off(value: &[u8]) -> RuleLine {
        let (terms, bound) = parted(value, b':');
        let mut signs = (0..terms.len()).filter(|&place| matches!(terms[place], b'+' | b'-'));
        let start = signs.next().unwrap_or(0);
        let turn = signs.next();
        RuleLine {
            first: Signed::read_off(&terms[start..turn.unwrap_or(terms.len())]),
            second: turn.map(|turn| Signed::read_off(&terms[turn..])),
            bound: Bound::read_off(bound),
        }
    }

    fn past_limit(&self, limits: Limits) -> bool {
        let mut quantities = [Some(&self.first), self.second.as_ref()].into_iter().flatten();
        quantities.any(|signed| signed.number.within(1, limits.n as i64).is_none())
            || self.bound.magnitude.within(0, limits.bound).is_none()
    }

    fn cancels(&self) -> bool {
        let opposite = |second: &Signed| second.number == self.first.number && second.minus != self.first.minus;
        self.second.as_ref().is_some_and(opposite)
    }
}

impl Signed {
    /// Where there is no sign + is taken, and shows when it is spelled.
    fn read_off(bytes: &[u8]) -> Signed {
        Signed { minus: bytes.starts_with(b"-"), number: Decimal::among(bytes) }
    }

    fn literal(&self) -> Literal {
        Literal { sign: if self.minus { -1 } else { 1 }, quantity: known(&self.number) }
    }
}

impl Bound {
    fn read_off(bytes: &[u8]) -> Bound {
        let magnitude = Decimal::among(bytes);
        Bound { minus: bytes.starts_with(b"-") && !magnitude.is_zero(), magnitude }
    }
}

impl fmt::Display for RuleLine {
    fn fmt(&self, f: &mut fmt::Formatter) -> fmt::Result {
        write!(f, "rule={}", self.first)?;
        self.second.as_ref().map_or(Ok(()), |second| write!(f, "{second}"))?;
        write!(f, ":{}{}", if self.bound.minus { "-" } else { "" }, self.bound.magnitude)
    }
}

impl fmt::Display for Signed {
    fn fmt(&self, f: &mut fmt::Formatter) -> fmt::Result {
        write!(f, "{}{}", if self.minus { '-' } else { '+' }, self.number)
    }
}
