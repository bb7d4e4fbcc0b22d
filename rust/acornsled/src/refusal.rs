//! The refusals of document 01, 'Returned to the caller', and of document 02.

use crate::calls::Reply;
use std::error::Error;
use std::fmt;

/// Why a call is refused. A line is 0 outside of texts. Later versions have further refusals.
#[non_exhaustive]
#[derive(Clone, Copy, PartialEq, Eq, Hash, Debug)]
pub enum Refusal {
    /// 1: n outside 1 to 32, a table that is too short for n, or a text of more than 65,536 bytes
    Size,
    /// 2: a line is malformed or missing, or bytes follow the last rule
    Malformed { line: usize },
    /// 3: a number is outside its limit
    OutOfLimit { line: usize },
    /// 4: a rule or a question `+q-q` or `-q+q`
    Cancelling { line: usize },
    /// 5: no integers satisfy the table
    NoAssignment,
    /// 6: what is lent to be written to is too short
    TooShort { needed: usize },
    /// 7: the script has another n or hidden list than the sheet, or one of its rules names a hidden quantity
    Mismatch,
    /// 8: the list of questions is empty or has more than 64
    ListSize,
    /// 9: a rule of a bank sheet has a doubled term, as `+1+1`, or its higher quantity first, as `+3-2`, or its place is not
    /// after that of the rule before it
    NotCanonical { line: usize },
}

impl Refusal {
    /// The document's number.
    pub fn number(self) -> u32 {
        match self {
            Refusal::Size => 1,
            Refusal::Malformed { .. } => 2,
            Refusal::OutOfLimit { .. } => 3,
            Refusal::Cancelling { .. } => 4,
            Refusal::NoAssignment => 5,
            Refusal::TooShort { .. } => 6,
            Refusal::Mismatch => 7,
            Refusal::ListSize => 8,
            Refusal::NotCanonical { .. } => 9,
        }
    }

    /// The line that it is about, 0 where it is about none.
    pub fn line(self) -> usize {
        match self {
            Refusal::Malformed { line }
            | Refusal::OutOfLimit { line }
            | Refusal::Cancelling { line }
            | Refusal::NotCanonical { line } => line,
            Refusal::Size
            | Refusal::NoAssignment
            | Refusal::TooShort { .. }
            | Refusal::Mismatch
            | Refusal::ListSize => 0,
        }
    }

    /// The refusal that a call has answered, none where its number is 0.
    ///
    /// # Panics
    ///
    /// For a number that no call answers.
    pub fn of(reply: Reply) -> Option<Refusal> {
        let Reply { number, value } = reply;
        match number {
            0 => None,
            1 => Some(Refusal::Size),
            2 => Some(Refusal::Malformed { line: value }),
            3 => Some(Refusal::OutOfLimit { line: value }),
            4 => Some(Refusal::Cancelling { line: value }),
            5 => Some(Refusal::NoAssignment),
            6 => Some(Refusal::TooShort { needed: value }),
            7 => Some(Refusal::Mismatch),
            8 => Some(Refusal::ListSize),
            9 => Some(Refusal::NotCanonical { line: value }),
            _ => panic!("the library answers {number}, which is no refusal"),
        }
    }
}

impl fmt::Display for Refusal {
    fn fmt(&self, f: &mut fmt::Formatter) -> fmt::Result {
        let what = match self {
            Refusal::Size => "too large, or a table too short for its quantities",
            Refusal::Malformed { .. } => "malformed or missing",
            Refusal::OutOfLimit { .. } => "a number outside its limit",
            Refusal::Cancelling { .. } => "a rule whose quantities cancel",
            Refusal::NoAssignment => "no integers satisfy it",
            Refusal::TooShort { needed } => return write!(f, "refused with 6: what is lent is shorter than {needed}"),
            Refusal::Mismatch => "the script does not fit the sheet",
            Refusal::ListSize => "the list of questions is empty or has more than 64",
            Refusal::NotCanonical { .. } => "a rule is doubled, has its higher quantity first, or is out of order",
        };
        match self.line() {
            0 => write!(f, "refused with {}: {what}", self.number()),
            line => write!(f, "refused with {} at line {line}: {what}", self.number()),
        }
    }
}

impl Error for Refusal {}
