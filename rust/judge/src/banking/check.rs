//! One text judged: the reply of bank reading, the header, the table's words and every other lent word.

use super::call::BankCall;
use super::counts::Counts;
use super::due::Owed;
use super::holds;
use crate::calls::{same_reply, same_words};
use crate::library::{BankReader, Header, Reply, DONE};
use crate::meaning::size;
use crate::plain_text::Plain;
use crate::random::Random;
use crate::sheets::Sheet;
use crate::text::check::shown;

/// Judges the bank reading of a text into so many words. Gives what was due.
pub fn text(
    library: &dyn BankReader,
    text: &[u8],
    table: usize,
    random: &mut Random,
    counts: &mut Counts,
) -> Result<Owed, String> {
    let owed = Owed::of(text, table)?;
    let due = owed.read().map(|paper| paper.sheet());
    // the library's times are measured against it
    once(&Plain, &due, BankCall::new(text, table, random))
        .map_err(|e| format!("the judges differ: plain: {e}\n{}", shown(text)))?;
    let told = |e| format!("into {table} words: {e}\n{}", shown(text));
    // on different memory, which has to make no difference
    for _ in 0..2 {
        once(library, &due, BankCall::new(text, table, random)).map_err(told)?;
    }
    holds::between_calls(library, text, table).map_err(told)?;
    counts.text(text, &owed);
    Ok(owed)
}

fn once(library: &dyn BankReader, due: &Result<Sheet, Reply>, mut call: BankCall) -> Result<(), String> {
    let reply = call.run(library);
    match due {
        Err(refusal) => {
            same_reply(reply, *refusal)?;
            call.memory(None)
        }
        Ok(sheet) => {
            same_reply(reply, DONE)?;
            call.memory(Some(Header { quantities: sheet.n, hidden: sheet.hidden }))?;
            same_words(&call.table.left()[..size(sheet.n)], &sheet.table)
        }
    }
}
