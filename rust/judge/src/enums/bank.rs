//! A bank sheet read into a table that holds its own words, against the call on lent ones.

use super::table::{same, written};
use crate::banking::changes;
use crate::library::{BankReader, Header, DONE};
use crate::linked::Linked;
use crate::meaning::size;
use crate::random::Random;
use crate::sheets::Sheet;
use acornsled::limits::TABLE_WORDS;
use acornsled::Table;

/// One table of so many is tried with its own text, for bank sheets are much alike.
const SHARE: usize = 4;

/// Holds what the crate makes of a text as a bank sheet against the call; if the text is read, at times also of its table's
/// own text, which has to give the table again, and of that text changed. Gives the numbers that were replied.
pub fn text(text: &[u8], random: &mut Random) -> Result<Vec<u32>, String> {
    let mut numbers = vec![banked(text)?];
    if random.below(SHARE) > 0 {
        return Ok(numbers);
    }
    let Ok(table) = Table::read(text) else { return Ok(numbers) };
    let (reply, own) = written(&table);
    match Table::read_bank(&own) {
        Ok(again) if reply.number == DONE.number && again == table => {}
        answer => return Err(format!("bank sheet of the table's own text: {answer:?}")),
    }
    let Table { quantities: n, hidden, words } = table;
    let changed = changes::drawn(&Sheet { n, hidden, table: words }, random).text;
    for text in [own, changed] {
        numbers.push(banked(&text)?);
    }
    Ok(numbers)
}

fn banked(text: &[u8]) -> Result<u32, String> {
    let mut header = Header::default();
    let mut words = vec![0; TABLE_WORDS];
    let reply = Linked.bank_read(text, &mut words, &mut header);
    words.truncate(size(header.quantities));
    let due = Table { quantities: header.quantities, hidden: header.hidden, words };
    same(&Table::read_bank(text), reply, &due).map_err(|e| format!("bank sheet: {e}"))?;
    Ok(reply.number)
}
