//! What is to hold between bank reading and the library's other calls on texts, by document 02's words; what is due of a
//! text does not come in.

use super::cut::{cut, HEADER};
use crate::calls::same_words;
use crate::library::{not_canonical, spelled, written, BankReader, Header, Reply, DONE};
use crate::meaning::{size, MOST_QUANTITIES};
use crate::sheets::Sheet;

/// Room for every table.
const ROOM: usize = size(MOST_QUANTITIES);

/// A text that the bank accepts is what the writer makes of what was read, and ordinary reading reads it alike. One that it
/// refuses with 9 is fine to ordinary reading up to that line, which is the first that a bank sheet may not have. With any
/// other number ordinary reading refuses it alike, and the rules before, with 6 all of them, are a bank sheet.
pub fn between_calls(library: &dyn BankReader, text: &[u8], table: usize) -> Result<(), String> {
    let (bank, read) = called(table, |words, header| library.bank_read(text, words, header));
    let (ordinary, alike) = called(table, |words, header| library.read(text, words, header));
    match bank {
        DONE if ordinary == DONE => {
            if (read.n, read.hidden) != (alike.n, alike.hidden) {
                return Err("n or the hidden set is not that of ordinary reading".into());
            }
            same_words(&read.table, &alike.table).map_err(|e| format!("by the bank and by ordinary reading: {e}"))?;
            own_text(library, &read, text)
        }
        Reply { number: 9, value: line } if is_later(ordinary, line) => {
            begun(library, text, line - HEADER - 1, DONE, bank)?;
            begun(library, text, line - HEADER, not_canonical(line), bank)
        }
        Reply { number: 2..=4, value: line } if bank == ordinary && line > HEADER => {
            begun(library, text, line - HEADER - 1, DONE, bank)
        }
        Reply { number: 6, .. } if bank == ordinary => {
            let lines = text.iter().filter(|&&byte| byte == b'\n').count();
            begun(library, text, lines - HEADER, DONE, bank)
        }
        Reply { number: 1..=3, .. } if bank == ordinary => Ok(()),
        _ => Err(format!("reply {}, where ordinary reading replies {}", spelled(bank), spelled(ordinary))),
    }
}

/// A table whose words are within the limits of a sheet, written and read by the bank, is the table again.
pub fn there_and_back(library: &dyn BankReader, sheet: &Sheet) -> Result<Vec<u8>, String> {
    let mut out = vec![0; acornsled::limits::TEXT_BYTES];
    let Reply { number: 0, value } = library.write(sheet.n, sheet.hidden, &sheet.table, &mut out) else {
        return Err("the table is not written".into());
    };
    out.truncate(value);
    let (reply, read) = called(size(sheet.n), |words, header| library.bank_read(&out, words, header));
    if reply != DONE {
        return Err(format!("reply {} to the table's own text", spelled(reply)));
    }
    if (read.n, read.hidden) != (sheet.n, sheet.hidden) {
        return Err(format!("n {} and hidden set {:#x} of the table's own text", read.n, read.hidden));
    }
    same_words(&read.table, &sheet.table).map_err(|e| format!("of the table's own text: {e}"))?;
    Ok(out)
}

/// The reply to a reading into so many words, and what it leaves.
fn called(table: usize, read: impl FnOnce(&mut [i64], &mut Header) -> Reply) -> (Reply, Sheet) {
    let mut words = vec![0; table];
    let mut header = Header::default();
    let reply = read(&mut words, &mut header);
    words.truncate(size(header.quantities.min(MOST_QUANTITIES)));
    (reply, Sheet { n: header.quantities, hidden: header.hidden, table: words })
}

/// Does the writer make these bytes of what was read?
fn own_text(library: &dyn BankReader, read: &Sheet, text: &[u8]) -> Result<(), String> {
    // one byte more, so that a longer text is seen
    let mut out = vec![0; text.len() + 1];
    let reply = library.write(read.n, read.hidden, &read.table, &mut out);
    match reply == written(text.len()) && out[..text.len()] == *text {
        true => Ok(()),
        false => Err("read by the bank, though the writer makes another text of it".into()),
    }
}

/// Does ordinary reading end behind this rule line, if at all?
fn is_later(ordinary: Reply, line: usize) -> bool {
    let behind = match ordinary.number {
        0 | 6 => true,
        2..=4 => ordinary.value > line,
        _ => false,
    };
    line > HEADER && behind
}

/// Is this the reply to the first so many rules alone, where the whole text has another?
fn begun(library: &dyn BankReader, text: &[u8], rules: usize, due: Reply, whole: Reply) -> Result<(), String> {
    let begun = cut(text, rules);
    let (reply, _) = called(ROOM, |words, header| library.bank_read(&begun, words, header));
    match reply == due {
        true => Ok(()),
        false => {
            let (reply, due, whole) = (spelled(reply), spelled(due), spelled(whole));
            Err(format!("reply {whole}, but to the first {rules} rules alone {reply}, due {due}"))
        }
    }
}
