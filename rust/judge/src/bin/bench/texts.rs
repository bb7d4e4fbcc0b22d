//! The calls on texts. A table or an output is lent to all calls of a batch in turn, as in `tables`.

use crate::papers::Pair;
use crate::times::{take_turns, timed, Batches, Side};
use judge::library::{written, BankReader, Header, Reply, Texts, DONE, EQUAL};
use judge::linked::Linked;
use judge::meaning::{size, MOST_QUANTITIES};
use judge::plain_text;
use judge::sheets::Sheet;
use std::hint::black_box;

/// Times the reading of each sheet.
pub fn read_sheet(pairs: &[Pair]) -> Batches {
    read(&sheets(pairs))
}

/// Times the bank reading of each sheet, whose text is in bank form.
pub fn read_bank(pairs: &[Pair]) -> Batches {
    reading(&sheets(pairs), |text, table, header| Linked.bank_read(text, table, header), plain_text::bank_read)
}

/// Times the bank reading of each sheet by the library, and in the place of plain Rust its ordinary reading of the same text.
pub fn read_twofold(pairs: &[Pair]) -> Batches {
    let (bank, ordinary) = (
        |text: &[u8], table: &mut [i64], header: &mut Header| Linked.bank_read(text, table, header),
        |text: &[u8], table: &mut [i64], header: &mut Header| Linked.read(text, table, header),
    );
    reading(&sheets(pairs), bank, ordinary)
}

fn sheets(pairs: &[Pair]) -> Vec<&[u8]> {
    pairs.iter().map(|pair| &pair.text[..]).collect()
}

/// Times the reading of each sheet's equal script.
pub fn read_script(pairs: &[Pair]) -> Batches {
    read(&pairs.iter().map(|pair| pair.scripts.with(EQUAL)).collect::<Vec<_>>())
}

/// Times the writing of each sheet.
pub fn write_sheet(pairs: &[Pair]) -> Batches {
    write(&pairs.iter().map(|pair| (&pair.sheet, pair.text.len())).collect::<Vec<_>>())
}

/// Times the reading of these texts.
pub fn read(texts: &[&[u8]]) -> Batches {
    reading(texts, |text, table, header| Linked.read(text, table, header), plain_text::read)
}

/// Times two ways of reading these texts.
fn reading(
    texts: &[&[u8]],
    library: impl Fn(&[u8], &mut [i64], &mut Header) -> Reply,
    plain: impl Fn(&[u8], &mut [i64], &mut Header) -> Reply,
) -> Batches {
    let mut table = [0; size(MOST_QUANTITIES)];
    let mut header = Header { quantities: 0, hidden: 0 };
    take_turns(texts.len(), |side| {
        timed(|| {
            texts.iter().all(|text| {
                let (table, header) = (black_box(&mut table[..]), black_box(&mut header));
                let reply = match side {
                    Side::Library => library(text, table, header),
                    Side::Plain => plain(text, table, header),
                };
                reply == DONE
            })
        })
    })
}

/// Times the writing of these sheets, whose texts have these lengths.
pub fn write(sheets: &[(&Sheet, usize)]) -> Batches {
    let longest = sheets.iter().map(|&(_, length)| length).max();
    let mut out = vec![0; longest.unwrap_or(0)];
    take_turns(sheets.len(), |side| {
        timed(|| {
            sheets.iter().all(|&(Sheet { n, hidden, table }, length)| {
                let out = black_box(&mut out[..]);
                let reply = match side {
                    Side::Library => Linked.write(*n, *hidden, table, out),
                    Side::Plain => plain_text::write(*n, *hidden, table, out),
                };
                reply == written(length)
            })
        })
    })
}
