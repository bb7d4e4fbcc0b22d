//! Pairs of texts with the number that is due stated by hand, or the whole answer, from document 01's words and the cases
//! that they decide. The judge's own verdicts are held against these too.

mod reasons;
mod stated;

use super::call::MarkCall;
use super::check;
use super::counts::Counts;
use super::due;
use super::reasons::Owed;
use crate::library::{Marker, SIZE, TIGHT};
use crate::meaning::{MOST_BYTES, MOST_RULES};
use crate::random::Random;
use crate::text::check::shown;
use reasons::REASONS;
use stated::{Group, ALL_BUT_LAST, GROUPS, REFUSED};

/// How often an example is judged, with different memory.
const TURNS: u64 = 4;

/// Judges all examples. They are counted as such and not by their numbers.
pub fn all(library: &dyn Marker, counts: &mut Counts) -> Result<(), String> {
    let judged = [groups(library), refused(library), sizes(library), long_scripts(library), reasons(library)];
    for part in judged {
        counts.examples += part.map_err(|e| format!("example: {e}"))?;
    }
    Ok(())
}

/// Scripts with their sheet's header.
fn groups(library: &dyn Marker) -> Result<usize, String> {
    for Group { n, hidden, sheet, scripts } in GROUPS {
        for &(script, number) in scripts {
            let [sheet, script] = [sheet, script].map(|rules| text(&(n, hidden, rules)));
            example(library, &sheet, &script, number)?;
        }
    }
    Ok(GROUPS.iter().map(|group| group.scripts.len()).sum())
}

/// Papers with headers of their own, which are refused.
fn refused(library: &dyn Marker) -> Result<usize, String> {
    for (sheet, script, number) in REFUSED {
        example(library, &text(&sheet), &text(&script), number)?;
    }
    Ok(REFUSED.len())
}

/// Texts that are empty, or about as long as a text may be.
fn sizes(library: &dyn Marker) -> Result<usize, String> {
    let right = text(&("1", "", &[]));
    let cancelling = text(&("1", "", &["+1-1:0"]));
    let mut longest = right.clone();
    longest.resize(MOST_BYTES, b'\n');
    let longer = [&longest[..], b"\n"].concat();
    let cases: [(&[u8], &[u8], u32); 10] = [
        (b"", &right, 2),
        (&right, b"", 2),
        (b"", b"", 2),
        (b"", &longer, 2),
        (&longer, b"", 1),
        (&longer, &right, 1),
        (&right, &longer, 1),
        (&longest, &longer, 2),
        (&right, &longest, 2),
        (&cancelling, &longer, 4),
    ];
    for (sheet, script, number) in cases {
        example(library, sheet, script, number)?;
    }
    Ok(cases.len())
}

/// Scripts with as many rules as there may be and the longest bounds: these can make a text too long.
fn long_scripts(library: &dyn Marker) -> Result<usize, String> {
    let paper = |rules: &[&str]| text(&("32", ALL_BUT_LAST, rules));
    let cases = [("-32:-2147483648000000000", TIGHT), ("-32-32:-2147483648000000000", SIZE.number)];
    for (rule, number) in cases {
        example(library, &paper(&[]), &paper(&[rule; MOST_RULES]), number)?;
    }
    Ok(cases.len())
}

/// Papers with all that is answered.
fn reasons(library: &dyn Marker) -> Result<usize, String> {
    for (sheet, script, length, stated) in REASONS {
        let (sheet, script) = (text(&sheet), text(&script));
        let texts = |e| format!("{e}\nsheet, {}\nscript, {}, {length} words", shown(&sheet), shown(&script));
        let due = due::of(&sheet, &script)?;
        let owed = Owed::of(&due, length);
        if owed.answer() != stated {
            return Err(texts(format!("the judges differ: {:?}, stated {stated:?}", owed.answer())));
        }
        let mut random = Random::new(0, 0);
        owed.judged(library, &MarkCall::new(&sheet, &script, &mut random), &mut random).map_err(texts)?;
    }
    Ok(REASONS.len())
}

/// The whole text of a paper.
fn text((n, hidden, rules): &(&str, &str, &[&str])) -> Vec<u8> {
    let mut text = format!("quantities={n}\nhidden={hidden}\nrules={}\n", rules.len());
    rules.iter().for_each(|rule| text += &format!("rule={rule}\n"));
    text.into_bytes()
}

/// Judges a marking with this number.
fn example(library: &dyn Marker, sheet: &[u8], script: &[u8], stated: u32) -> Result<(), String> {
    let due = due::of(sheet, script)?.number;
    if due != stated {
        let texts = format!("sheet, {}\nscript, {}", shown(sheet), shown(script));
        return Err(format!("the judges differ: number {due}, stated {stated}\n{texts}"));
    }
    for turn in 0..TURNS {
        check::texts(library, sheet, script, &mut Random::new(0, turn), &mut Counts::default())?;
    }
    Ok(())
}
