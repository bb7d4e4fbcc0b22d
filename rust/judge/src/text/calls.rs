//! A call on lent memory, and what each reply may have changed (document 01, 'Returned to the caller').

use crate::calls::kept;
use crate::lent::{further, Lent};
use crate::library::{Header, Reply, Texts};
use crate::meaning::size;
use crate::random::Random;
use crate::text::writer::Given;

pub struct ReadCall {
    pub text: Lent<u8>,
    pub table: Lent,
    pub header: Header,
    before: Header,
}

impl ReadCall {
    /// The text with so many words for its table. Words and header may hold anything.
    pub fn new(text: &[u8], table: usize, random: &mut Random) -> ReadCall {
        let header = Header { quantities: random.word() as usize, hidden: random.word() as u32 };
        let table = Lent::new(&random.words(table), random);
        ReadCall { text: Lent::text(text, random), table, header, before: header }
    }

    pub fn run(&mut self, library: &dyn Texts) -> Reply {
        library.read(self.text.left(), self.table.slice(), &mut self.header)
    }

    /// Has the call changed nothing but the first 2n² words, and without a text that was read nothing at all?
    pub fn memory(&self, read: Option<Header>) -> Result<(), String> {
        kept("text", &self.text, 0)?;
        kept("table", &self.table, read.map_or(0, |header| size(header.quantities)))?;
        let due = read.unwrap_or(self.before);
        if self.header != due {
            return Err(format!("{:?}, due {due:?}", self.header));
        }
        Ok(())
    }
}

pub struct WriteCall {
    n: usize,
    hidden: u32,
    table: Lent,
    pub out: Lent<u8>,
}

impl WriteCall {
    pub fn new(given: &Given, random: &mut Random) -> WriteCall {
        let table = Lent::new(&given.table, random);
        let out = random.bytes(given.out);
        WriteCall { n: given.n, hidden: given.hidden, table, out: Lent::bytes(&out, random) }
    }

    pub fn run(&mut self, library: &dyn Texts) -> Reply {
        library.write(self.n, self.hidden, self.table.left(), self.out.slice())
    }

    /// Has the call changed nothing but so many first bytes of the output?
    pub fn memory(&self, written: usize) -> Result<(), String> {
        kept("table", &self.table, 0)?;
        kept("output", &self.out, written)
    }
}

/// How many words are lent for the table of a text of n quantities: as many as needed or a few more, or now and then
/// too few.
pub fn table_length(n: usize, random: &mut Random) -> usize {
    match random.chance(10) {
        true => random.edge(size(n)),
        false => size(n) + further(random),
    }
}
