//! A sheet's own keys as its script, in the writer's text. Whatever the bounds of the plain one are, it is accepted and
//! equal; the tightest is where its bounds are a script's, and else refused with 3.

use super::check;
use super::counts::Counts;
use crate::due::{key, tight_key};
use crate::library::{Marker, EQUAL, PAST_LIMIT};
use crate::meaning::script_limit;
use crate::plain::within;
use crate::random::Random;
use crate::sheets::Sheet;
use crate::text::paper::Paper;

/// Judges the marking of a sheet's own keys, if the sheet has an assignment.
pub fn key_texts(library: &dyn Marker, sheet: &Paper, random: &mut Random, counts: &mut Counts) -> Result<(), String> {
    let read = sheet.sheet();
    let Some((plain, tight)) = key(&read)?.zip(tight_key(&read)) else {
        return Ok(());
    };
    let due = if within(script_limit(sheet.hidden), &tight) { EQUAL } else { PAST_LIMIT.number };
    for (table, due) in [(plain, EQUAL), (tight, due)] {
        let script = Sheet { n: sheet.n, hidden: sheet.hidden, table }.to_string();
        let number = check::texts(library, &sheet.text(), script.as_bytes(), random, counts)?;
        if number != due {
            return Err(format!("the judges differ: {number}, and {due} is due of a sheet's own key\n{script}"));
        }
        counts.own_keys += 1;
    }
    Ok(())
}
