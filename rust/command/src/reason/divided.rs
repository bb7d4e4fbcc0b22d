//! A mark between the digits of a number: a decimal, thousands, an exponent, or numbers joined by another mark.

use super::cause;
use super::fault::Fault;

const DIVIDED: &str = "write the number with digits alone, as 1000000";
const INTEGER: &str = "write an integer; a bound is rounded down, since for integers at most 5.5 is at most 5";
const WHOLE: &str = "quantities and rule lines are counted in whole numbers, written with digits alone";
const JOINED: &str = "hidden quantities are joined by commas, as hidden=2,5";
const NUMBERED: &str = "quantities are numbered 1, 2, 3 and so on, and have a sign, but no factor; a colon stands \
                        before the bound, as in rule=+1+2:5";

/// What a number is, by which a mark in it has its usual cause.
#[derive(Clone, Copy, PartialEq, Eq, Debug)]
pub enum Number {
    Count,
    Hidden,
    Quantity,
    Bound,
}

/// The fault of a mark after the digits of a number, none where it is not between digits or has no usual cause; `due` is
/// what may stand there.
pub fn fault(line: &[u8], at: usize, number: Number, due: &str) -> Option<Fault> {
    let mark = *line.get(at)?;
    if at == 0 || !line[at - 1].is_ascii_digit() || digits(&line[at + 1..]) == 0 {
        return None;
    }
    match (number, mark) {
        (Number::Hidden, b'.' | b';' | b'/' | b'|' | b'-' | b' ' | b'\t') => {
            Some(cause::stray(line, at, due).with_help(JOINED))
        }
        (Number::Quantity, b'.' | b',' | b'*') => Some(cause::stray(line, at, due).with_help(NUMBERED)),
        (Number::Hidden | Number::Quantity, _) => None,
        (Number::Count | Number::Bound, _) => amount(line, at, number),
    }
}

fn digits(bytes: &[u8]) -> usize {
    bytes.iter().take_while(|byte| byte.is_ascii_digit()).count()
}

/// A mark between the digits of a count or a bound.
fn amount(line: &[u8], at: usize, number: Number) -> Option<Fault> {
    let (mark, behind) = (line[at], digits(&line[at + 1..]));
    let three = behind == 3;
    let again = three && line.get(at + 4) == Some(&mark) && digits(&line[at + 5..]) == 3;
    let separator = || Fault::new(at, 1, "a separator of thousands: numbers have digits alone").with_help(DIVIDED);
    match mark {
        b'\'' | b'_' => Some(separator()),
        b' ' if three => Some(separator()),
        b'.' | b',' if again => Some(separator()),
        b'.' | b',' if three && leads(line, at) => Some(either(line, at, number)),
        b'.' | b',' => {
            let what = format!("a decimal {}: numbers are integers", called(mark));
            Some(Fault::new(at, 1 + behind, what).with_help(if number == Number::Bound { INTEGER } else { WHOLE }))
        }
        b'e' | b'E' => Some(Fault::new(at, 1 + behind, "an exponent: numbers have digits alone").with_help(DIVIDED)),
        _ => None,
    }
}

fn called(mark: u8) -> &'static str {
    if mark == b',' {
        "comma"
    } else {
        "point"
    }
}

/// The place where the digits before the mark begin.
fn beginning(line: &[u8], at: usize) -> usize {
    at - line[..at].iter().rev().take_while(|byte| byte.is_ascii_digit()).count()
}

/// Whether the digits before the mark can be the first ones of a number whose thousands are separated.
fn leads(line: &[u8], at: usize) -> bool {
    let from = beginning(line, at);
    at - from <= 3 && line[from] != b'0'
}

/// One mark with three digits after it, which is one for thousands in some countries and for a decimal in others.
fn either(line: &[u8], at: usize, number: Number) -> Fault {
    let what = format!("a separator of thousands or a decimal {}: numbers have digits alone", called(line[at]));
    let fault = Fault::new(at, 1, what);
    if number == Number::Count {
        return fault.with_help(DIVIDED);
    }
    let from = beginning(line, at);
    let sign = if from > 0 && line[from - 1] == b'-' { "-" } else { "" };
    let (before, behind) = (line[from..at].escape_ascii(), line[at + 1..at + 4].escape_ascii());
    fault.with_help(format!("where thousands are meant, write {sign}{before}{behind}; where a fraction is, {INTEGER}"))
}
