//! What *key* has to print for a text: the writer's text of the tightest key, or the refusal.

use super::lines;
use crate::due;
use crate::library::{Reply, NO_ASSIGNMENT};
use crate::meaning::{largest_bound, rules, script_limit, size, LIMIT, MOST_QUANTITIES};
use crate::sheets::Sheet;
use crate::text::reader;

/// Judges what is printed. Gives the kinds of the answer, of which a run has to meet all.
pub fn judged(text: &[u8], printed: &[u8]) -> Result<Vec<String>, String> {
    match told(text)? {
        Ok(Told { key, plain }) => {
            lines::same(printed, key.to_string())?;
            Ok(kinds(&key, &plain))
        }
        Err(Reply { number, value }) => {
            lines::same(printed, format!("refused={number}\nline={value}\n"))?;
            Ok(vec![format!("key, refused {number}")])
        }
    }
}

/// The tightest key as a sheet, and the words of the plain one.
struct Told {
    key: Sheet,
    plain: Vec<i64>,
}

/// What is due, or the refusal with its line, 0 where there is none.
fn told(text: &[u8]) -> Result<Result<Told, Reply>, String> {
    // room for every table is there
    let paper = match reader::due(text, size(MOST_QUANTITIES)) {
        Ok(paper) => paper,
        Err(refusal) => return Ok(Err(refusal.reply)),
    };
    let sheet = paper.sheet();
    let both = due::tight_key(&sheet).zip(due::key(&sheet)?);
    Ok(both.map(|(table, plain)| Told { key: Sheet { table, ..sheet }, plain }).ok_or(NO_ASSIGNMENT))
}

fn kinds(key: &Sheet, plain: &[i64]) -> Vec<String> {
    let held = rules(key.n, &key.table);
    let met = [
        (!held.is_empty(), "rules"),
        (held.is_empty(), "no rule"),
        (largest_bound(&held) > LIMIT as u64, "past the limits"),
        (largest_bound(&held) > script_limit(key.hidden) as u64, "past a script's limits"),
        (key.table == plain, "the plain key"),
        (key.table != plain, "not the plain key"),
    ];
    met.iter().filter(|(met, _)| *met).map(|(_, kind)| format!("key, {kind}")).collect()
}
