//! The forms of the lines: what a line says, or the first fault that makes it malformed. Limits are looked at elsewhere.

use super::cause;
use super::cursor::{Cursor, Numeral};
use super::divided::Number;
use super::fault::Fault;
use super::relation;
use acornsled::Rule;
use std::cmp::Ordering;

/// A quantity behind its sign.
#[derive(Clone, Copy, PartialEq, Eq, Debug)]
pub struct Term<'a> {
    pub minus: bool,
    pub quantity: Numeral<'a>,
}

/// A rule as it is written.
#[derive(Clone, Copy, PartialEq, Eq, Debug)]
pub struct RuleLine<'a> {
    pub first: Term<'a>,
    pub second: Option<Term<'a>>,
    pub minus: bool,
    pub bound: Numeral<'a>,
}

impl Term<'_> {
    /// The quantity's number with its sign, 0 where it does not fit.
    fn signed(&self) -> i64 {
        let quantity = self.quantity.value().and_then(|value| i64::try_from(value).ok()).unwrap_or(0);
        if self.minus {
            -quantity
        } else {
            quantity
        }
    }
}

impl RuleLine<'_> {
    /// Where the terms begin in the line, and how many bytes they take.
    pub fn terms(&self) -> (usize, usize) {
        let (from, last) = (self.first.quantity.at - 1, self.second.as_ref().unwrap_or(&self.first).quantity);
        (from, last.at + last.digits.len() - from)
    }

    /// The rule by value, as it is written. Its numbers are within their limits.
    pub fn rule(&self) -> Rule {
        let magnitude = self.bound.value().and_then(|value| i64::try_from(value).ok()).unwrap_or(i64::MAX);
        let bound = if self.minus { -magnitude } else { magnitude };
        match &self.second {
            None => Rule::One { term: self.first.signed(), bound },
            Some(second) => Rule::Two { first: self.first.signed(), second: second.signed(), bound },
        }
    }
}

const END_OF_NUMBER: &str = "a digit or the end of the line";

/// A line of a key and a number.
pub fn count<'a>(line: &'a [u8], key: &'static str) -> Result<Numeral<'a>, Fault> {
    let mut cursor = Cursor::after(line, key)?;
    let number = cursor.numeral("a number without a sign")?;
    cursor.end(Number::Count, END_OF_NUMBER)?;
    Ok(number)
}

/// The line of hidden quantities.
pub fn hidden(line: &[u8]) -> Result<Vec<Numeral<'_>>, Fault> {
    let mut cursor = Cursor::after(line, "hidden=")?;
    let mut list: Vec<Numeral> = Vec::new();
    if cursor.byte().is_none() {
        return Ok(list);
    }
    loop {
        let next = cursor.numeral("a quantity number")?;
        list.last().map_or(Ok(()), |last| increasing(last, &next))?;
        list.push(next);
        if cursor.byte() != Some(b',') {
            cursor.end(Number::Hidden, "a digit, a comma or the end of the line")?;
            return Ok(list);
        }
        cursor.at += 1;
    }
}

/// Without leading zeros the longer numeral is the larger one.
fn increasing(last: &Numeral, next: &Numeral) -> Result<(), Fault> {
    let order = last.digits.len().cmp(&next.digits.len()).then_with(|| last.digits.cmp(next.digits));
    let what = match order {
        Ordering::Less => return Ok(()),
        Ordering::Equal => format!("{} stands twice; the list has each quantity once, increasing", next.shown()),
        Ordering::Greater => format!("{} follows {}; the list has to increase", next.shown(), last.shown()),
    };
    Err(Fault::new(next.at, next.digits.len(), what))
}

/// A rule line.
pub fn rule(line: &[u8]) -> Result<RuleLine<'_>, Fault> {
    let mut cursor = Cursor::after(line, "rule=")?;
    let first = term(&mut cursor)?;
    let second = match cursor.byte() {
        Some(b'+' | b'-') => Some(term(&mut cursor)?),
        _ => None,
    };
    colon(&mut cursor, second.is_some())?;
    let (minus, bound) = bound(&mut cursor)?;
    cursor.end(Number::Bound, END_OF_NUMBER)?;
    Ok(RuleLine { first, second, minus, bound })
}

fn term<'a>(cursor: &mut Cursor<'a>) -> Result<Term<'a>, Fault> {
    let minus = match cursor.byte() {
        Some(sign @ (b'+' | b'-')) => sign == b'-',
        Some(b'0'..=b'9') => {
            return Err(Fault::new(cursor.at, 1, "no sign: + or - is due before the quantity, also before the first"))
        }
        _ => return Err(cause::stray(cursor.line, cursor.at, "a sign, + or -,")),
    };
    cursor.at += 1;
    let quantity = cursor.numeral("a quantity number")?;
    Ok(Term { minus, quantity })
}

/// The colon after the terms, of which a rule has no more than two.
fn colon(cursor: &mut Cursor, two: bool) -> Result<(), Fault> {
    let at = cursor.at;
    match cursor.byte() {
        Some(b':') => {
            cursor.at += 1;
            Ok(())
        }
        Some(b'+' | b'-') => Err(Fault::new(at, 1, "a third quantity: a rule has one or two")),
        None => Err(Fault::new(at, 1, "the line ends here: a colon and a bound are due")),
        Some(_) => {
            let due = if two { "a digit or a colon" } else { "a digit, a sign or a colon" };
            Err(relation::fault(cursor.line, at).unwrap_or_else(|| cursor.after_number(Number::Quantity, due)))
        }
    }
}

/// The bound, and whether it is negative.
fn bound<'a>(cursor: &mut Cursor<'a>) -> Result<(bool, Numeral<'a>), Fault> {
    let at = cursor.at;
    let minus = match cursor.byte() {
        Some(b'+') => return Err(Fault::new(at, 1, "a + before the bound: only - may stand there")),
        byte => byte == Some(b'-'),
    };
    cursor.at += usize::from(minus);
    let bound = cursor.numeral("a bound, an integer,")?;
    if minus && bound.digits == b"0" {
        return Err(Fault::new(at, 2, "-0: zero is written 0"));
    }
    Ok((minus, bound))
}
