//! Marking a script against a sheet, both as texts.

use crate::calls::{self, Reply, Told};
use crate::limits::MOST_QUANTITIES;
use crate::{Refusal, Rule};
use std::error::Error;
use std::fmt;

/// What a script is worth. The integers have one for each quantity, hidden ones too, in order.
#[derive(Clone, PartialEq, Eq, Hash, Debug)]
pub enum Verdict {
    /// the script allows just the visible integers that the sheet allows
    Equal,
    /// it allows some that no hidden values complete, as these; they break the rule of the key, of which there is none where the
    /// sheet itself allows nothing. The hidden ones are 0
    Loose { rule: Option<Rule>, values: Vec<i64> },
    /// it is not loose and forbids some that hidden values do complete, as these; they break the rule of the script
    Tight { rule: Rule, values: Vec<i64> },
}

impl Verdict {
    /// The number that the exam host gets.
    pub fn number(&self) -> u32 {
        match self {
            Verdict::Equal => 100,
            Verdict::Loose { .. } => 101,
            Verdict::Tight { .. } => 102,
        }
    }

    /// The word that *mark* prints.
    pub fn name(&self) -> &'static str {
        match self {
            Verdict::Equal => "equal",
            Verdict::Loose { .. } => "loose",
            Verdict::Tight { .. } => "tight",
        }
    }

    /// The verdict of a number that marking answers, with the rule's words and the integers; none where it is a refusal's.
    pub(crate) fn of(number: u32, rule: [i64; 3], values: &[i64]) -> Option<Verdict> {
        let values = || values.to_vec();
        match number {
            100 => Some(Verdict::Equal),
            101 => Some(Verdict::Loose { rule: Rule::of(rule), values: values() }),
            102 => Some(Verdict::Tight { rule: Rule::of(rule).expect("a tight verdict has a rule"), values: values() }),
            _ => None,
        }
    }
}

/// Which paper a refusal is about.
#[derive(Clone, Copy, PartialEq, Eq, Hash, Debug)]
pub enum Paper {
    Sheet,
    Script,
    /// the two do not fit each other
    Both,
}

impl Paper {
    /// The word that *mark* prints.
    pub fn name(self) -> &'static str {
        match self {
            Paper::Sheet => "sheet",
            Paper::Script => "script",
            Paper::Both => "both",
        }
    }

    /// The paper of a number that marking two texts has written.
    fn of(number: u32) -> Paper {
        match number {
            1 => Paper::Sheet,
            2 => Paper::Script,
            3 => Paper::Both,
            _ => panic!("the library names the paper {number}, which is none"),
        }
    }
}

impl fmt::Display for Paper {
    fn fmt(&self, f: &mut fmt::Formatter) -> fmt::Result {
        f.write_str(self.name())
    }
}

/// A refusal of marking, with the paper that it is about.
#[derive(Clone, Copy, PartialEq, Eq, Hash, Debug)]
pub struct Refused {
    pub paper: Paper,
    pub refusal: Refusal,
}

impl fmt::Display for Refused {
    fn fmt(&self, f: &mut fmt::Formatter) -> fmt::Result {
        write!(f, "{}: {}", self.paper, self.refusal)
    }
}

impl Error for Refused {}

/// Marks a script's text against a sheet's. The sheet is read first, then the script, then the two are held against each
/// other.
///
/// # Panics
///
/// Where the library is a newer one and answers a number that this crate does not know.
pub fn mark(sheet: &[u8], script: &[u8]) -> Result<Verdict, Refused> {
    let mut values = [0; MOST_QUANTITIES];
    let mut told = Told { paper: 0, value: 0, quantities: 0, rule: [0; 3] };
    let number = calls::mark_texts(sheet, script, &mut values, &mut told);
    Verdict::of(number, told.rule, &values[..told.quantities]).ok_or_else(|| {
        let refusal = Refusal::of(Reply { number, value: told.value }).expect("0 is no answer of marking");
        Refused { paper: Paper::of(told.paper), refusal }
    })
}
