//! A script for each verdict on a sheet: its key, and its key with one bound changed by one, at the last place that makes
//! the verdict loose or tight.

use judge::library::{DONE, EQUAL, LOOSE, TIGHT};
use judge::meaning::{size, NO_RULE};
use judge::plain;
use judge::plain_mark;
use judge::sheets::Sheet;

/// The verdicts, and by how much a bound of the key is changed for each.
const VERDICTS: [(u32, i64); 3] = [(EQUAL, 0), (LOOSE, 1), (TIGHT, -1)];

/// The texts of the scripts, in the order of the verdicts.
pub struct Texts([Vec<u8>; VERDICTS.len()]);

impl Texts {
    /// The script with this verdict.
    pub fn with(&self, verdict: u32) -> &[u8] {
        &self.0[(verdict - EQUAL) as usize]
    }
}

/// The scripts on a sheet with this text, unless no rule of its key counts.
pub fn of(sheet: &Sheet, text: &[u8]) -> Option<Texts> {
    let key = key(sheet);
    let [equal, loose, tight] = VERDICTS.map(|(verdict, by)| changed(text, &key, by, verdict));
    Some(Texts([equal?, loose?, tight?]))
}

/// The sheet's key.
fn key(sheet: &Sheet) -> Sheet {
    let mut table = sheet.table.clone();
    assert_eq!(plain::key(sheet.n, sheet.hidden, &mut table, &mut vec![0; size(sheet.n)]), DONE);
    Sheet { n: sheet.n, hidden: sheet.hidden, table }
}

/// The key with one bound changed by so much, at the last place where this gives the verdict.
fn changed(sheet: &[u8], key: &Sheet, by: i64, verdict: u32) -> Option<Vec<u8>> {
    let held = (0..key.table.len()).rev().filter(|&place| key.table[place] != NO_RULE);
    let mut scripts = held.map(|place| {
        let mut table = key.table.clone();
        table[place] += by;
        Sheet { n: key.n, hidden: key.hidden, table }.to_string().into_bytes()
    });
    scripts.find(|script| plain_mark::mark(sheet, script) == verdict)
}
