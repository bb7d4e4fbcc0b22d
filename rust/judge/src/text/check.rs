//! One text read, or one table written: the reply, every lent word and byte, and the way back.

use super::calls::{ReadCall, WriteCall};
use super::counts::Counts;
use super::reader;
use super::refusal::Refusal;
use super::writer::Given;
use crate::calls::{same_reply, same_words};
use crate::library::{written, Header, Texts, DONE};
use crate::meaning::size;
use crate::plain_text::Plain;
use crate::random::Random;
use crate::sheets::Sheet;

/// Judges a reading into so many words. Gives what the library has read, if the text is acceptable.
pub fn read(
    library: &dyn Texts,
    text: &[u8],
    table: usize,
    random: &mut Random,
    counts: &mut Counts,
) -> Result<Option<Sheet>, String> {
    let due = reader::due(text, table).map(|paper| paper.sheet());
    // the library's times are measured against it
    reading(&Plain, &due, ReadCall::new(text, table, random)).map_err(|e| format!("the judges differ: plain: {e}"))?;
    let sheet = reading(library, &due, ReadCall::new(text, table, random))
        .map_err(|e| format!("reading into {table} words: {e}\n{}", shown(text)))?;
    counts.reading(&due);
    Ok(sheet)
}

fn reading(library: &dyn Texts, due: &Result<Sheet, Refusal>, mut call: ReadCall) -> Result<Option<Sheet>, String> {
    let reply = call.run(library);
    match due {
        Err(refusal) => {
            same_reply(reply, refusal.reply)?;
            call.memory(None)?;
            Ok(None)
        }
        Ok(sheet) => {
            same_reply(reply, DONE)?;
            call.memory(Some(Header { quantities: sheet.n, hidden: sheet.hidden }))?;
            let found = &call.table.left()[..size(sheet.n)];
            same_words(found, &sheet.table)?;
            Ok(Some(Sheet { n: call.header.quantities, hidden: call.header.hidden, table: found.to_vec() }))
        }
    }
}

/// Judges a call of the writer. Gives the text that the library has written, if nothing is refused.
pub fn write(
    library: &dyn Texts,
    given: &Given,
    random: &mut Random,
    counts: &mut Counts,
) -> Result<Option<Vec<u8>>, String> {
    let due = given.due();
    writing(&Plain, &due, WriteCall::new(given, random)).map_err(|e| format!("the judges differ: plain: {e}"))?;
    let text = writing(library, &due, WriteCall::new(given, random)).map_err(|e| format!("writing: {e}\n{given}"))?;
    counts.writing(&due);
    Ok(text)
}

fn writing(
    library: &dyn Texts,
    due: &Result<Vec<u8>, Refusal>,
    mut call: WriteCall,
) -> Result<Option<Vec<u8>>, String> {
    let reply = call.run(library);
    match due {
        Err(refusal) => {
            same_reply(reply, refusal.reply)?;
            call.memory(0)?;
            Ok(None)
        }
        Ok(text) => {
            same_reply(reply, written(text.len()))?;
            call.memory(text.len())?;
            let found = &call.out.left()[..text.len()];
            same_bytes(found, text)?;
            Ok(Some(found.to_vec()))
        }
    }
}

fn same_bytes(found: &[u8], due: &[u8]) -> Result<(), String> {
    match (0..due.len()).find(|&at| found[at] != due[at]) {
        Some(at) => Err(format!("byte {at}: {:?}, due {:?}", char::from(found[at]), char::from(due[at]))),
        None => Ok(()),
    }
}

/// A text as it can be printed, or the beginning of a long one.
pub fn shown(text: &[u8]) -> String {
    const MOST: usize = 1500;
    let begin = &text[..text.len().min(MOST)];
    format!("{} bytes: {}", text.len(), begin.escape_ascii())
}
