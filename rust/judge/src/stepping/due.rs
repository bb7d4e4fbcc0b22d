//! What is due of a call, decided without the library: the refusal, or the words of the table.

use super::given::Given;
use crate::due;
use crate::library::{Reply, DONE, NO_ASSIGNMENT};
use crate::naive;

/// What is due of a call.
pub enum Owed {
    /// 5 among them
    Refused(Reply),
    Done(Tables),
}

/// The words that are due, and those of the table with which the step begins.
pub struct Tables {
    pub begun_with: Vec<i64>,
    pub words: Vec<i64>,
}

impl Owed {
    /// That two ways of deciding differ is a failure of the judge.
    pub fn of(given: &Given) -> Result<Owed, String> {
        let first = given.reasons().first().map(|reason| reason.reply);
        if let Some(reply) = first.filter(|&reply| reply != NO_ASSIGNMENT) {
            return Ok(Owed::Refused(reply));
        }
        let Some(begun_with) = due::key(&given.sheet())? else {
            return Ok(Owed::Refused(NO_ASSIGNMENT));
        };
        let words = naive::begun(given.n, given.step.quantity, given.step.blocks, &begun_with);
        Ok(Owed::Done(Tables { begun_with, words }))
    }

    pub fn reply(&self) -> Reply {
        match self {
            Owed::Refused(reply) => *reply,
            Owed::Done(_) => DONE,
        }
    }
}
