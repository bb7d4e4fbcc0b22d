//! A call on lent memory, and which words each reply may have changed.

use super::given::Given;
use crate::calls::kept;
use crate::lent::{Around, Lent};
use crate::library::{Asker, Reply, DONE, NO_ASSIGNMENT};
use crate::meaning::size;
use crate::random::Random;

pub struct AskCall {
    n: usize,
    table: Lent,
    questions: Lent,
    pub workspace: Lent,
    pub answers: Around<u64>,
    /// the answers before the call
    pub before: u64,
}

impl AskCall {
    /// What may be written to holds anything before.
    pub fn new(given: &Given, random: &mut Random) -> AskCall {
        let before = random.word();
        AskCall {
            n: given.n,
            table: Lent::new(&given.table, random),
            questions: Lent::new(&given.questions, random),
            workspace: Lent::new(&random.words(given.workspace), random),
            answers: Around::new(before, random),
            before,
        }
    }

    pub fn run(&mut self, library: &dyn Asker) -> Reply {
        let (table, questions) = (self.table.left(), self.questions.left());
        library.ask(self.n, table, questions, self.workspace.slice(), &mut self.answers.within)
    }

    /// Has the call changed no word but those that its reply leaves free? The answers themselves are looked at elsewhere.
    pub fn memory(&self, reply: Reply) -> Result<(), String> {
        let free = match reply {
            DONE | NO_ASSIGNMENT => size(self.n),
            _ => 0,
        };
        kept("table", &self.table, 0)?;
        kept("questions", &self.questions, 0)?;
        kept("workspace", &self.workspace, free)?;
        match self.answers.kept() {
            true => Ok(()),
            false => Err("a word changed beside the answers".into()),
        }
    }
}
