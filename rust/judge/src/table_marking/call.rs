//! A call on lent memory, and which words each reply may have changed (document 01, 'Returned to the caller').

use super::given::Given;
use crate::calls::kept;
use crate::due::FARTHEST;
use crate::lent::{Around, Lent};
use crate::library::{Papers, Reply, TableMarker};
use crate::meaning::size;
use crate::random::Random;

pub struct TablesCall {
    n: usize,
    hidden: u32,
    sheet: Lent,
    script: Lent,
    workspace: Lent,
    pub values: Lent,
    pub rule: Around<[i64; 3]>,
    /// the rule's words before the call
    pub before: [i64; 3],
}

impl TablesCall {
    /// What may be written to holds anything before; half of the time no word is an integer of an assignment, so that one
    /// which is not written is seen.
    pub fn new(given: &Given, random: &mut Random) -> TablesCall {
        let mut values = random.words(given.values);
        if random.chance(50) {
            values.iter_mut().filter(|word| (-FARTHEST..=FARTHEST).contains(*word)).for_each(|word| *word ^= i64::MIN);
        }
        let before = [(); 3].map(|_| random.word() as i64);
        TablesCall {
            n: given.n,
            hidden: given.hidden,
            sheet: Lent::new(&given.sheet, random),
            script: Lent::new(&given.script, random),
            workspace: Lent::new(&random.words(given.workspace), random),
            values: Lent::new(&values, random),
            rule: Around::new(before, random),
            before,
        }
    }

    pub fn run(&mut self, library: &dyn TableMarker) -> Reply {
        let (n, hidden, sheet, script) = (self.n, self.hidden, self.sheet.left(), self.script.left());
        let papers = Papers { n, hidden, sheet, script };
        library.mark_tables(papers, self.workspace.slice(), self.values.slice(), &mut self.rule.within)
    }

    /// Has a call with a verdict or without one changed nothing but its workspace, and the first words of the values, so many?
    pub fn memory(&self, verdict: bool, free: usize) -> Result<(), String> {
        kept("sheet", &self.sheet, 0)?;
        kept("script", &self.script, 0)?;
        kept("workspace", &self.workspace, if verdict { 2 * size(self.n) } else { 0 })?;
        kept("values", &self.values, free)?;
        match self.rule.kept() {
            true => Ok(()),
            false => Err("a word changed beside the rule".into()),
        }
    }
}
