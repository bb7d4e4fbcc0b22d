//! The verdict on two tables that hold their own words, against the call on lent ones.

use super::mark::{same_verdict, Numbers};
use super::table::{damaged, same_refusal};
use crate::library::{spelled, Papers, TableMarker, Told, EQUAL, TIGHT};
use crate::linked::Linked;
use crate::meaning::MOST_QUANTITIES;
use crate::random::Random;
use acornsled::limits::MARKING_WORDS;
use acornsled::{Refusal, Table};

/// Holds what the crate says of the tables of two texts against the call, then with one of them damaged. Gives whether both
/// texts are read.
pub fn texts(sheet: &[u8], script: &[u8], random: &mut Random) -> Result<bool, String> {
    let (Ok(sheet), Ok(script)) = (Table::read(sheet), Table::read(script)) else {
        return Ok(false);
    };
    tables(&sheet, &script)?;
    // their bounds may be past those of a text that is read as a sheet, and of the second past a script's
    for key in [sheet.clone().key(), sheet.clone().tight_key()].into_iter().flatten() {
        tables(&sheet, &key)?;
    }
    match random.chance(50) {
        true => tables(&damaged(sheet, random), &script)?,
        false => tables(&sheet, &damaged(script, random))?,
    }
    Ok(true)
}

/// Holds the verdict or the refusal of marking two tables against the call.
fn tables(sheet: &Table, script: &Table) -> Result<(), String> {
    let answer = sheet.mark(script);
    let Table { quantities: n, hidden, .. } = *sheet;
    if (n, hidden) != (script.quantities, script.hidden) {
        return match answer {
            Err(Refusal::Mismatch) => Ok(()),
            _ => Err(format!("{answer:?}, though n or the hidden set differs")),
        };
    }
    let papers = Papers { n, hidden, sheet: &sheet.words, script: &script.words };
    let (mut values, mut rule) = (vec![0; MOST_QUANTITIES], [0; 3]);
    let reply = Linked.mark_tables(papers, &mut vec![0; MARKING_WORDS], &mut values, &mut rule);
    values.truncate(n);
    match (answer, reply.number) {
        (Ok(verdict), EQUAL..=TIGHT) => {
            let told = Told { rule, ..Told::default() };
            same_verdict(&verdict, &Numbers { number: reply.number, told, values })
        }
        (Err(refusal), ..EQUAL) => same_refusal(refusal, reply),
        (answer, _) => Err(format!("{answer:?}, where the call replies {}", spelled(reply))),
    }
}
