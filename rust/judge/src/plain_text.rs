//! The calls on texts in ordinary Rust, bank reading among them: what the library's times are measured against. It is written
//! for its speed and shares nothing with `text` and `banking`, so that a slip in one shows against the other.

pub(crate) mod parser;
mod place;
mod printer;

use crate::library::{too_short, written, BankReader, Header, Reply, Texts, DONE, PAST_LIMIT, SIZE};
use crate::meaning::{MOST_QUANTITIES, NO_RULE};
use parser::{Parsed, Parser};

/// The rules are collected before the table is filled, so that a refusal changes nothing.
pub fn read(text: &[u8], table: &mut [i64], header: &mut Header) -> Reply {
    filled(Parser::sheet(text), table, header)
}

/// The same of a bank sheet.
pub fn bank_read(text: &[u8], table: &mut [i64], header: &mut Header) -> Reply {
    filled(Parser::bank_sheet(text), table, header)
}

fn filled(parsed: Result<Parsed, Reply>, table: &mut [i64], header: &mut Header) -> Reply {
    let sheet = match parsed {
        Ok(sheet) => sheet,
        Err(refusal) => return refusal,
    };
    let words = 2 * sheet.n * sheet.n;
    if table.len() < words {
        return too_short(words);
    }
    table[..words].fill(NO_RULE);
    sheet.put(table);
    *header = Header { quantities: sheet.n, hidden: sheet.hidden };
    DONE
}

/// The text is made before it is copied, so that a refusal changes nothing.
pub fn write(n: usize, hidden: u32, table: &[i64], out: &mut [u8]) -> Reply {
    if n == 0 || n > MOST_QUANTITIES || table.len() < 2 * n * n {
        return SIZE;
    }
    // as 64 bits, for a 32-bit number cannot be shifted by 32
    if u64::from(hidden) >> n != 0 {
        return PAST_LIMIT;
    }
    let text = printer::sheet(n, hidden, &table[..2 * n * n]);
    if out.len() < text.len() {
        return too_short(text.len());
    }
    out[..text.len()].copy_from_slice(&text);
    written(text.len())
}

/// The calls as a library.
pub struct Plain;

impl Texts for Plain {
    fn read(&self, text: &[u8], table: &mut [i64], header: &mut Header) -> Reply {
        read(text, table, header)
    }

    fn write(&self, n: usize, hidden: u32, table: &[i64], out: &mut [u8]) -> Reply {
        write(n, hidden, table, out)
    }
}

impl BankReader for Plain {
    fn bank_read(&self, text: &[u8], table: &mut [i64], header: &mut Header) -> Reply {
        bank_read(text, table, header)
    }
}
