//! All orders of up to three rules over two quantities, in all spellings, and all short rule lines behind some others:
//! there nothing is left to chance.

use super::check;
use super::counts::Counts;
use crate::library::BankReader;
use crate::meaning::size;
use crate::random::Random;

/// Each quantity with each sign: a term has one of these or two.
const SIGNED: [&str; 4] = ["+1", "-1", "+2", "-2"];

/// The most rules of an order.
const RULES: u32 = 3;

/// Two quantities have 8 places. Of lists of up to 3 rules with one bound those are bank sheets that choose 0, 1, 2 or 3 of
/// them.
const BANK_SHEETS: usize = 1 + 8 + 28 + 56;

/// Of these, up to so many, lines are made, and put behind these others.
const PIECES: [&str; 7] = ["+1", "-1", "+2", "-2", ":0", ":2000000000", "0"];
const MOST: u32 = 4;
const BEFORE: [&str; 3] = ["+1:0", "+1+2:0", "-1-2:0"];

/// Judges all of them. They are counted as such and not by their replies.
pub fn all(library: &dyn BankReader, counts: &mut Counts) -> Result<(), String> {
    orders(library, counts)?;
    lines(library, counts)
}

fn orders(library: &dyn BankReader, counts: &mut Counts) -> Result<(), String> {
    let pairs = SIGNED.iter().flat_map(|one| SIGNED.map(|other| format!("{one}{other}")));
    let terms: Vec<String> = SIGNED.iter().map(|one| one.to_string()).chain(pairs).collect();
    let mut read = 0;
    for order in words(terms.len(), RULES) {
        let rules: Vec<String> = order.iter().map(|&at| format!("{}:0", terms[at])).collect();
        read += usize::from(judged(library, &rules, counts)?);
    }
    match read == BANK_SHEETS {
        true => Ok(()),
        false => Err(format!("the judges differ: {read} orders are bank sheets, stated {BANK_SHEETS}")),
    }
}

fn lines(library: &dyn BankReader, counts: &mut Counts) -> Result<(), String> {
    for before in BEFORE {
        for word in words(PIECES.len(), MOST) {
            let line: String = word.iter().map(|&at| PIECES[at]).collect();
            judged(library, &[before.to_string(), line], counts)?;
        }
    }
    Ok(())
}

/// Judges the text with these rules over two quantities. Gives whether it is read.
fn judged(library: &dyn BankReader, rules: &[String], counts: &mut Counts) -> Result<bool, String> {
    let lines: String = rules.iter().map(|rule| format!("rule={rule}\n")).collect();
    let text = format!("quantities=2\nhidden=\nrules={}\n{lines}", rules.len());
    counts.short += 1;
    let mut random = Random::new(0, counts.short as u64);
    let owed = check::text(library, text.as_bytes(), size(2), &mut random, &mut Counts::default())?;
    Ok(owed.read().is_ok())
}

/// All words of up to `most` letters, each a number below `letters`.
fn words(letters: usize, most: u32) -> impl Iterator<Item = Vec<usize>> {
    let all = (0..=most).flat_map(move |length| (0..letters.pow(length)).map(move |number| (length, number)));
    all.map(move |(length, number)| (0..length).map(|digit| number / letters.pow(digit) % letters).collect())
}
