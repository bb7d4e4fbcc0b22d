//! A call on lent memory, and what each reply may have changed.

use crate::calls::kept;
use crate::lent::{Around, Lent};
use crate::library::{BankReader, Header, Reply};
use crate::meaning::size;
use crate::random::Random;

pub struct BankCall {
    text: Lent<u8>,
    pub table: Lent,
    pub header: Around<Header>,
    /// the header before the call
    before: Header,
}

impl BankCall {
    /// The text with so many words for its table. Words and header may hold anything.
    pub fn new(text: &[u8], table: usize, random: &mut Random) -> BankCall {
        let before = Header { quantities: random.word() as usize, hidden: random.word() as u32 };
        let table = Lent::new(&random.words(table), random);
        BankCall { text: Lent::text(text, random), table, header: Around::new(before, random), before }
    }

    pub fn run(&mut self, library: &dyn BankReader) -> Reply {
        library.bank_read(self.text.left(), self.table.slice(), &mut self.header.within)
    }

    /// Has the call changed nothing but the header and the first 2n² words, and without a text that was read nothing at
    /// all?
    pub fn memory(&self, read: Option<Header>) -> Result<(), String> {
        kept("text", &self.text, 0)?;
        kept("table", &self.table, read.map_or(0, |header| size(header.quantities)))?;
        let due = read.unwrap_or(self.before);
        if self.header.within != due {
            return Err(format!("{:?}, due {due:?}", self.header.within));
        }
        match self.header.kept() {
            true => Ok(()),
            false => Err("a word changed beside the header".into()),
        }
    }
}
