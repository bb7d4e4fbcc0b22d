//! There and back: a text read and written, a table written and read.

use super::calls::table_length;
use super::check;
use super::counts::Counts;
use super::paper::Paper;
use super::reader;
use super::writer::Given;
use crate::calls::same_words;
use crate::library::Texts;
use crate::meaning::{rules, size, LIMIT, MOST_BYTES};
use crate::random::Random;
use crate::sheets::Sheet;

/// Reads an acceptable text and writes what was read, which is its rules' one text: the writer's.
pub fn text(library: &dyn Texts, paper: &Paper, random: &mut Random, counts: &mut Counts) -> Result<(), String> {
    let text = paper.text();
    if reader::due(&text, size(paper.n)).as_ref() != Ok(paper) {
        return Err(format!("the judges differ: this is not read as it was written\n{}", check::shown(&text)));
    }
    let words = table_length(paper.n, random);
    let Some(Sheet { n, hidden, table }) = check::read(library, &text, words, random, counts)? else {
        return Ok(());
    };
    let out = paper.sheet().to_string().len();
    let given = Given { n, hidden, table, out };
    check::write(library, &given, random, counts).map_err(|e| format!("written back: {e}"))?;
    counts.rewritten += 1;
    Ok(())
}

/// Writes a table and reads its text, which gives the table and the hidden set back if the bounds are within the limit.
pub fn table(library: &dyn Texts, given: &Given, random: &mut Random, counts: &mut Counts) -> Result<(), String> {
    let Some(text) = check::write(library, given, random, counts)? else {
        return Err("the judges differ: the call is refused".into());
    };
    let words = &given.table[..size(given.n)];
    if words.contains(&i64::MIN) {
        counts.met("write 0 least word");
    }
    if text.len() > MOST_BYTES {
        counts.met("write 0 over the size of a text");
    }
    let read = check::read(library, &text, size(given.n), random, counts).map_err(|e| format!("read back: {e}"))?;
    let readable = rules(given.n, words).iter().all(|rule| (-LIMIT..=LIMIT).contains(&rule.bound));
    match read {
        None if readable => Err("read back: it is not acceptable".into()),
        None => Ok(()),
        Some(sheet) if (sheet.n, sheet.hidden) == (given.n, given.hidden) => {
            counts.reread += 1;
            same_words(&sheet.table, words).map_err(|e| format!("read back: {e}"))
        }
        Some(sheet) => Err(format!("read back: n {} and hidden set {:#x}\n{given}", sheet.n, sheet.hidden)),
    }
}
