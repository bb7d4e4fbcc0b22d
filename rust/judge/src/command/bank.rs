//! What `acornsled bank` has to print for a text, and what with `--check`, and random texts. No proved program prints that:
//! the text is read here as `text` reads it, its one text is made by the list of terms, and whether it is a bank sheet is
//! decided as `banking` does.

use crate::banking::due::Owed;
use crate::banking::{changes, inputs, list};
use crate::library::Reply;
use crate::meaning::{size, MOST_QUANTITIES};
use crate::random::Random;
use crate::text::reader;

/// Room for every table is there.
const ROOM: usize = size(MOST_QUANTITIES);

/// The lines that are due: the sheet in bank form, or the refusal of ordinary reading.
pub fn printed(text: &[u8]) -> String {
    match reader::due(text, ROOM) {
        Ok(paper) => list::text(&paper.sheet()),
        Err(refusal) => refused(refusal.reply),
    }
}

/// The lines that are due with `--check`: that the text is a bank sheet, or the refusal of bank reading.
pub fn checked(text: &[u8]) -> Result<String, String> {
    Ok(match Owed::of(text, ROOM)?.read() {
        Ok(_) => "bank=yes\n".into(),
        Err(refusal) => refused(refusal),
    })
}

fn refused(Reply { number, value }: Reply) -> String {
    format!("refused={number}\nline={value}\n")
}

/// The text with this number: a bank sheet, one that was changed, or some other text made of it.
pub fn drawn(seed: u64, number: u64) -> Vec<u8> {
    let mut random = Random::new(seed, number);
    let sheet = inputs::sheet(&mut random);
    match number % 4 {
        0 => list::text(&sheet).into_bytes(),
        1 | 2 => changes::drawn(&sheet, &mut random).text,
        _ => inputs::text(&sheet, &mut random),
    }
}
