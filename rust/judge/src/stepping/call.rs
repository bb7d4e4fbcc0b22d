//! A call on lent memory, and which words each reply may have changed.

use super::given::Given;
use crate::calls::kept;
use crate::lent::Lent;
use crate::library::{Reply, Step, Stepper, DONE, NO_ASSIGNMENT};
use crate::meaning::size;
use crate::random::Random;

pub struct StepCall {
    n: usize,
    step: Step,
    pub table: Lent,
    workspace: Lent,
}

impl StepCall {
    /// The workspace holds anything before.
    pub fn new(given: &Given, random: &mut Random) -> StepCall {
        StepCall {
            n: given.n,
            step: given.step,
            table: Lent::new(&given.table, random),
            workspace: Lent::new(&random.words(given.workspace), random),
        }
    }

    pub fn run(&mut self, library: &dyn Stepper) -> Reply {
        library.step(self.n, self.step, self.table.slice(), self.workspace.slice())
    }

    /// Has the call changed no word but those that its reply leaves free? The table's own are looked at elsewhere.
    pub fn memory(&self, reply: Reply) -> Result<(), String> {
        let (table, workspace) = match reply {
            DONE => (size(self.n), size(self.n)),
            NO_ASSIGNMENT => (0, size(self.n)),
            _ => (0, 0),
        };
        kept("table", &self.table, table)?;
        kept("workspace", &self.workspace, workspace)
    }
}
