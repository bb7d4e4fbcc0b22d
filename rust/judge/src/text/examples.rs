//! Texts and tables with what is due of them stated by hand, from document 01's words and the cases that they decide.
//! The judge's own reader and writer are held against these too.

mod stated;

use super::check;
use super::counts::Counts;
use super::paper::Paper;
use super::reader;
use super::writer::Given;
use super::written::Written;
use crate::library::{cancelling, malformed, past_limit, spelled, too_short, Reply, Texts, DONE, SIZE};
use crate::meaning::{size, terms, Term, LIMIT, MOST_BYTES, MOST_QUANTITIES, MOST_RULES, NO_RULE};
use crate::random::Random;
use stated::{Group, READ, REFUSED};

/// Room for every table.
const ROOM: usize = size(MOST_QUANTITIES);

/// Judges all examples. They are counted as such and not by their replies.
pub fn all(library: &dyn Texts, counts: &mut Counts) -> Result<(), String> {
    let judged = [read(library), refused(library), lengths(library), longest(library), words(library)];
    for part in judged {
        counts.examples += part.map_err(|e| format!("example: {e}"))?;
    }
    Ok(())
}

/// Texts that are read, and written again.
fn read(library: &dyn Texts) -> Result<usize, String> {
    for (text, canonical) in READ {
        let sheet = reader::due(text.as_bytes(), ROOM).map(|paper| paper.sheet());
        let sheet = sheet.map_err(|_| format!("the judges differ: {text:?} is stated to be read"))?;
        reading(library, text.as_bytes(), ROOM, DONE)?;
        writing(
            library,
            Given { n: sheet.n, hidden: sheet.hidden, table: sheet.table, out: canonical.len() },
            canonical,
        )?;
    }
    Ok(READ.len())
}

/// Texts that are refused for a line, behind lines that are not.
fn refused(library: &dyn Texts) -> Result<usize, String> {
    for Group { begin, line, ends } in REFUSED {
        for &(end, number) in ends {
            let due = match number {
                2 => malformed(line),
                3 => past_limit(line),
                _ => cancelling(line),
            };
            reading(library, format!("{begin}{end}").as_bytes(), ROOM, due)?;
        }
    }
    Ok(REFUSED.iter().map(|group| group.ends.len()).sum())
}

/// Too short a table is seen last, too long a text first.
fn lengths(library: &dyn Texts) -> Result<usize, String> {
    let sheet = b"quantities=3\nhidden=\nrules=0\n";
    let mut behind = sheet.to_vec();
    behind.resize(MOST_BYTES, b'\n');
    let mut longer = behind.clone();
    longer.push(b'\n');
    let mut unended = b"quantities=".to_vec();
    unended.resize(MOST_BYTES - 1, b'9');
    let ended = [&unended[..], b"\n"].concat();
    let cases: [(&[u8], usize, Reply); 9] = [
        (sheet, 18, DONE),
        (sheet, 17, too_short(18)),
        (sheet, 0, too_short(18)),
        (b"quantities=3\nhidden=\nrules=0\n\n", 17, malformed(4)),
        (b"quantities=3\nhidden=4\nrules=0\n", 0, past_limit(2)),
        (&behind, 0, malformed(4)),
        (&longer, 0, SIZE),
        (&unended, 0, malformed(1)),
        (&ended, 0, past_limit(1)),
    ];
    for (text, words, due) in cases {
        reading(library, text, words, due)?;
    }
    Ok(cases.len())
}

/// The longest acceptable text has 49,271 bytes, and the longest that is written 66,377.
fn longest(library: &dyn Texts) -> Result<usize, String> {
    let text = longest_sheet(MOST_RULES).text();
    let given = Given { n: MOST_QUANTITIES, hidden: u32::MAX, table: vec![i64::MIN; ROOM], out: 66_377 };
    if (text.len(), given.due().map(|text| text.len())) != (49_271, Ok(66_377)) {
        return Err("the judges differ: other lengths are stated for the longest texts".into());
    }
    reading(library, &text, ROOM, DONE)?;
    check::write(library, &given, &mut Random::new(0, 0), &mut Counts::default())?;
    Ok(2)
}

/// All quantities hidden and so many rules of the longest form, of which there are fewer places: they are named in
/// turn.
pub fn longest_sheet(rules: usize) -> Paper {
    let longest = terms(MOST_QUANTITIES).into_iter().filter(|term| term.to_string().len() == "-31-32".len());
    let rule = |Term { first, second }| Written { first, second, bound: -LIMIT };
    Paper { n: MOST_QUANTITIES, hidden: u32::MAX, rules: longest.cycle().take(rules).map(rule).collect() }
}

/// Any word but the no-rule word is printed.
fn words(library: &dyn Texts) -> Result<usize, String> {
    let cases: [(usize, u32, &[i64], &str); 3] = [
        (
            1,
            0b1,
            &[i64::MIN, NO_RULE - 1],
            "quantities=1\nhidden=1\nrules=2\nrule=+1:-9223372036854775808\nrule=-1:9223372036854775806\n",
        ),
        (1, 0, &[NO_RULE, 0], "quantities=1\nhidden=\nrules=1\nrule=-1:0\n"),
        (
            2,
            0b11,
            &[NO_RULE, NO_RULE, 10, -10, 1, -2, NO_RULE, -1_000_000_001],
            "quantities=2\nhidden=1,2\nrules=5\nrule=+2:10\nrule=-2:-10\nrule=+1+2:1\nrule=+1-2:-2\n\
             rule=-1-2:-1000000001\n",
        ),
    ];
    for (n, hidden, table, text) in cases {
        writing(library, Given { n, hidden, table: table.to_vec(), out: text.len() }, text)?;
    }
    Ok(cases.len())
}

/// Judges a reading with this reply.
fn reading(library: &dyn Texts, text: &[u8], words: usize, stated: Reply) -> Result<(), String> {
    let due = reader::due(text, words).map_or_else(|refusal| refusal.reply, |_| DONE);
    if due != stated {
        let (due, stated) = (spelled(due), spelled(stated));
        return Err(format!("the judges differ: reply {due}, stated {stated}\n{}", check::shown(text)));
    }
    check::read(library, text, words, &mut Random::new(0, 0), &mut Counts::default()).map(|_| ())
}

/// Judges a writing with this text.
fn writing(library: &dyn Texts, given: Given, stated: &str) -> Result<(), String> {
    if given.due().as_deref() != Ok(stated.as_bytes()) {
        return Err(format!("the judges differ: {stated:?} is stated for\n{given}"));
    }
    check::write(library, &given, &mut Random::new(0, 0), &mut Counts::default()).map(|_| ())
}
