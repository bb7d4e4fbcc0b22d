//! Texts with what is due stated by hand, from document 02's words and the cases that they decide.

use super::check;
use super::counts::Counts;
use crate::calls::same_reply;
use crate::library::{BankReader, Reply, DONE};
use crate::meaning::{size, MOST_BYTES, MOST_QUANTITIES};
use crate::random::Random;

/// How often an example is judged, with different memory.
const TURNS: u64 = 4;

/// Room for every table.
const ROOM: usize = size(MOST_QUANTITIES);

/// Quantities, the hidden list, what stands behind `rule=` on each rule line, and the number and the value that are due.
type Case = (usize, &'static str, &'static [&'static str], u32, usize);

const CASES: [Case; 57] = [
    (1, "", &[], 0, 0),
    (32, "1,32", &[], 0, 0),
    // document 01's sheet A, as it is and with its lower quantities first
    (3, "2", &["+1+2:5", "+1-2:2", "+3-2:0"], 9, 6),
    (3, "2", &["+1+2:5", "+1-2:2", "-2+3:0"], 0, 0),
    // each place of two quantities
    (2, "1", &["+1:7", "-1:6", "+2:5", "-2:4", "+1+2:3", "+1-2:2", "-1+2:1", "-1-2:0"], 0, 0),
    (2, "", &["+1:1000000000", "-1-2:-1000000000"], 0, 0),
    // a place again, whatever the bound
    (1, "", &["+1:3", "+1:3"], 9, 5),
    (1, "", &["+1:3", "+1:2"], 9, 5),
    (1, "", &["+1:3", "+1:4"], 9, 5),
    (1, "1", &["-1:3", "-1:3"], 9, 5),
    (2, "", &["+1:0", "-1:0", "+1:0"], 9, 6),
    (32, "", &["-31-32:0", "-31-32:0"], 9, 5),
    // a doubled term, also where its half would be fine
    (1, "", &["+1+1:7"], 9, 4),
    (1, "", &["-1-1:-3"], 9, 4),
    (2, "", &["+1:0", "+2+2:0"], 9, 5),
    (2, "", &["-1-2:0", "+1+1:0"], 9, 5),
    (1, "", &["+1+1:1000000000"], 9, 4),
    // the higher quantity first, also where the place is after the one before
    (2, "", &["+2+1:0"], 9, 4),
    (2, "", &["+1:0", "-2+1:0"], 9, 5),
    (12, "", &["+10-9:0"], 9, 4),
    (12, "", &["+9-10:0"], 0, 0),
    // the order of places, and not of quantities, signs or bytes
    (1, "", &["+1:0", "-1:0"], 0, 0),
    (1, "", &["-1:0", "+1:0"], 9, 5),
    (3, "", &["-1-2:0", "+3:0"], 0, 0),
    (3, "", &["+3:0", "+1+2:0"], 9, 5),
    (3, "", &["+2:0", "+1+2:0"], 0, 0),
    (3, "", &["+1+2:0", "+2:0"], 9, 5),
    (3, "", &["+1+3:0", "-2:0"], 9, 5),
    (3, "", &["-2:0", "+1+3:0"], 0, 0),
    (3, "", &["-1-3:0", "+2+3:0"], 0, 0),
    (3, "", &["+2+3:0", "-1-3:0"], 9, 5),
    (2, "", &["+1-2:0", "-1+2:0"], 0, 0),
    (2, "", &["-1+2:0", "+1-2:0"], 9, 5),
    (10, "", &["+9:0", "+10:0"], 0, 0),
    (10, "", &["+10:0", "+9:0"], 9, 5),
    (12, "", &["-10-11:0", "+12:0", "+1+12:0"], 0, 0),
    // the rule before counts, not the first; nothing before a first one
    (2, "", &["+1:0", "+2:0", "-1:0"], 9, 6),
    (2, "", &["-1-2:0"], 0, 0),
    // 9 ends the reading: what comes behind it is not looked at
    (2, "", &["+2:0", "+1:0", "+1:05"], 9, 5),
    (2, "", &["+2:0", "+1:0", "+3:0"], 9, 5),
    (2, "", &["+2:0", "+1:0", "+1-1:0"], 9, 5),
    (2, "", &["+2:0", "+1:0", "-2:0"], 9, 5),
    (2, "", &["+2:0", "+1:05", "+1:0"], 2, 5),
    (2, "", &["+2:0", "+1:1000000001", "+1:0"], 3, 5),
    (2, "", &["+1:0", "+2-2:0", "+1:0"], 4, 5),
    // 2, 3 and 4 come before it on its line
    (2, "", &["+2+1:1000000001"], 3, 4),
    (2, "", &["+1+1:2000000000"], 3, 4),
    (2, "", &["+3+1:0"], 3, 4),
    (2, "", &["+3+3:0"], 3, 4),
    (2, "", &["+2:0", "+1:-1000000001"], 3, 5),
    (2, "", &["+2+1:00"], 2, 4),
    (2, "", &["+2:0", "+1:-0"], 2, 5),
    (2, "", &["+1+1+1:0"], 2, 4),
    (2, "", &["+1-1:0"], 4, 4),
    (2, "", &["-1-2:0", "-1+1:0"], 4, 5),
    // a bank sheet is a sheet: a script's limit does not count
    (2, "1", &["+2:1000000001"], 3, 4),
    (2, "1", &["+2:2000000000"], 3, 4),
];

/// Judges all examples. They are counted as such and not by their replies.
pub fn all(library: &dyn BankReader, counts: &mut Counts) -> Result<(), String> {
    for (n, hidden, rules, number, value) in CASES {
        let text = text(n, hidden, rules.len(), rules);
        judged(library, text.as_bytes(), ROOM, Reply { number, value }, counts)?;
    }
    others(library, counts)
}

/// What stands behind the rules, lines that are missing, too short a table and too long a text, each alone and behind a
/// rule that a bank sheet may not have.
fn others(library: &dyn BankReader, counts: &mut Counts) -> Result<(), String> {
    let fine = text(3, "", 2, &["+1:0", "+2:0"]);
    let out = text(3, "", 2, &["+2:0", "+1:0"]);
    let long = |text: &str| text.to_string() + &"\n".repeat(MOST_BYTES + 1 - text.len());
    let cases = [
        (format!("{fine}\n"), ROOM, 2, 6),
        (format!("{out}\n"), ROOM, 9, 5),
        (text(3, "", 3, &["+1:0", "+2:0"]), ROOM, 2, 6),
        (text(3, "", 3, &["+2:0", "+1:0"]), ROOM, 9, 5),
        (text(3, "", 1, &["+2:0", "+1:0"]), ROOM, 2, 5),
        (out[..out.len() - 1].to_string(), ROOM, 2, 5),
        (fine.clone(), 18, 0, 0),
        (fine.clone(), 17, 6, 18),
        (fine.clone(), 0, 6, 18),
        (out.clone(), 17, 9, 5),
        (format!("{fine}\n"), 17, 2, 6),
        (long(&fine), ROOM, 1, 0),
        (long(&out), 0, 1, 0),
        (out.replace("quantities=3", "quantities=33"), ROOM, 3, 1),
        (out.replace("hidden=", "hidden=2,1"), ROOM, 2, 2),
        (out.replace("rules=2", "rules=2049"), ROOM, 3, 3),
    ];
    for (text, table, number, value) in cases {
        judged(library, text.as_bytes(), table, Reply { number, value }, counts)?;
    }
    Ok(())
}

fn text(n: usize, hidden: &str, count: usize, rules: &[&str]) -> String {
    let lines: String = rules.iter().map(|rule| format!("rule={rule}\n")).collect();
    format!("quantities={n}\nhidden={hidden}\nrules={count}\n{lines}")
}

fn judged(
    library: &dyn BankReader,
    text: &[u8],
    table: usize,
    stated: Reply,
    counts: &mut Counts,
) -> Result<(), String> {
    for turn in 0..TURNS {
        let mut random = Random::new(turn, counts.examples as u64);
        let owed = check::text(library, text, table, &mut random, &mut Counts::default());
        let due = owed.map_err(|e| format!("example: {e}"))?.read().map_or_else(|refusal| refusal, |_| DONE);
        same_reply(due, stated).map_err(|e| format!("the judges differ: stated: {e}\n{}", text.escape_ascii()))?;
    }
    counts.examples += 1;
    Ok(())
}
