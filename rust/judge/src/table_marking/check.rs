//! One call judged: its reply, the rule and the integers of a verdict, and every lent word.

use super::call::TablesCall;
use super::counts::Counts;
use super::given::Given;
use crate::calls::same_reply;
use crate::due::{key, tight_key};
use crate::library::{Reply, TableMarker, EQUAL, PAST_LIMIT};
use crate::marking::due::{self, Beside, Due};
use crate::marking::pairs::Tables;
use crate::marking::reasons::{words, written};
use crate::marking::shown::Shown;
use crate::meaning::script_limit;
use crate::plain::within;
use crate::plain_tables::Plain;
use crate::random::Random;
use crate::sheets::Sheet;

/// What is due of a call.
pub enum Owed {
    Refused(Reply),
    Verdict(Due),
}

impl Owed {
    /// Decides the call without the library. That two ways differ is a failure of the judge.
    pub fn of(given: &Given) -> Result<Owed, String> {
        if let Some(first) = given.reasons().first() {
            return Ok(Owed::Refused(first.reply));
        }
        let [sheet, script] = given.papers();
        Ok(Owed::Verdict(due::fitting(&sheet, &script)?))
    }

    pub fn reply(&self) -> Reply {
        match self {
            Owed::Refused(reply) => *reply,
            Owed::Verdict(due) => Reply { number: due.number, value: 0 },
        }
    }

    /// A loose or tight verdict.
    fn shown(&self) -> Option<&Shown> {
        match self {
            Owed::Verdict(Due { beside: Beside::Shown(shown), .. }) => Some(shown),
            _ => None,
        }
    }

    /// The three words of the rule, none where they stay as they were.
    pub fn rule(&self) -> Option<[i64; 3]> {
        self.shown().map(|shown| words(shown.rule()))
    }
}

/// Judges the call. Gives what was due.
pub fn tables(
    library: &dyn TableMarker,
    given: &Given,
    random: &mut Random,
    counts: &mut Counts,
) -> Result<Owed, String> {
    let owed = Owed::of(given).map_err(|e| format!("{e}\n{given}"))?;
    judged(&Plain, given, &owed, random).map_err(|e| format!("the judges differ: plain: {e}\n{given}"))?;
    let values = judged(library, given, &owed, random).map_err(|e| format!("{e}\n{given}"))?;
    counts.call(given, &owed);
    if let Some(shown) = owed.shown() {
        counts.met(shown.kinds(&values)?);
    }
    Ok(owed)
}

/// Judges the marking of a sheet's own keys, if the sheet has an assignment. Whatever the bounds of the plain one are, it is
/// accepted and equal; the tightest is where its bounds are a script's, and else refused with 3.
pub fn own_keys(
    library: &dyn TableMarker,
    sheet: Sheet,
    random: &mut Random,
    counts: &mut Counts,
) -> Result<(), String> {
    let Some((plain, tight)) = key(&sheet)?.zip(tight_key(&sheet)) else {
        return Ok(());
    };
    let Sheet { n, hidden, table } = sheet;
    let due = if within(script_limit(hidden), &tight) { EQUAL } else { PAST_LIMIT.number };
    for (own, due) in [(plain, EQUAL), (tight, due)] {
        let [sheet, script] = [table.clone(), own].map(|table| Sheet { n, hidden, table });
        let given = Given::sound(&Tables { sheet, script }, random);
        let number = tables(library, &given, random, counts)?.reply().number;
        if number != due {
            return Err(format!("the judges differ: {number}, and {due} is due of a sheet's own key\n{given}"));
        }
        counts.own_keys += 1;
    }
    Ok(())
}

/// Judges two calls on different memory, which have to come to the same. Gives the integers that they have written.
fn judged(library: &dyn TableMarker, given: &Given, owed: &Owed, random: &mut Random) -> Result<Vec<i64>, String> {
    let values = once(library, given, owed, random)?;
    owed.shown().map_or(Ok(()), |shown| shown.integers(&values))?;
    match once(library, given, owed, random)? == values {
        true => Ok(values),
        false => Err("called again it writes other integers".into()),
    }
}

/// Judges a call but for the integers that it has written, which it gives.
fn once(library: &dyn TableMarker, given: &Given, owed: &Owed, random: &mut Random) -> Result<Vec<i64>, String> {
    let mut call = TablesCall::new(given, random);
    let reply = call.run(library);
    same_reply(reply, owed.reply())?;
    written("the rule", call.rule.within, call.before, owed.rule())?;
    let free = owed.rule().map_or(0, |_| given.n);
    call.memory(matches!(owed, Owed::Verdict(_)), free)?;
    Ok(call.values.left()[..free].to_vec())
}
