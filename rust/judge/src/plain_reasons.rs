//! The verdict on two papers with its reasons, in ordinary Rust: what the library's times are measured against. The rule of
//! a loose verdict is looked for in the key and that of a tight one in the script's table, each by the tightest table of
//! the other paper; the integers are those of that other paper with the rule's opposite put in.

use crate::library::{too_short, Reply, Told, BOTH, EQUAL, LOOSE, MISMATCH, NOTHING, NO_PAPER, SCRIPT, SHEET, TIGHT};
use crate::meaning::NO_RULE;
use crate::plain::choose;
use crate::plain::step::{eliminate, hide};
use crate::plain_mark::Paper;

/// The number, with what is told beside it, and for loose and tight integers in the first n words of `values`.
pub fn mark_texts(sheet: &[u8], script: &[u8], values: &mut [i64], told: &mut Told) -> u32 {
    let (paper, reply) = match marked(sheet, script, values, told) {
        Ok(number) => (NO_PAPER, Reply { number, value: 0 }),
        Err(refused) => refused,
    };
    (told.paper, told.value) = (paper, reply.value);
    reply.number
}

/// The verdict's number, or the refusal with its paper.
fn marked(sheet: &[u8], script: &[u8], values: &mut [i64], told: &mut Told) -> Result<u32, (u32, Reply)> {
    let sheet = Paper::sheet(sheet).map_err(|refusal| (SHEET, refusal))?;
    let script = Paper::script(script).map_err(|refusal| (SCRIPT, refusal))?;
    let n = sheet.header.quantities;
    if values.len() < n {
        return Err((BOTH, too_short(n)));
    }
    if !script.fits(&sheet) {
        return Err((BOTH, Reply { number: MISMATCH, value: 0 }));
    }
    told.quantities = n;
    Ok(verdict(&sheet, &script, &mut values[..n], &mut told.rule))
}

/// The verdict's number on papers that fit each other, with the rule and integers of loose and tight.
pub(crate) fn verdict(sheet: &Paper, script: &Paper, values: &mut [i64], rule: &mut [i64; 3]) -> u32 {
    let least = sheet.tightened();
    let (verdict, by, broken) = if let Some(broken) = wide(sheet, least.is_some(), script) {
        (LOOSE, script, broken)
    } else if let Some(broken) = least.and_then(|least| Broken::first(&script.table, &least)) {
        (TIGHT, sheet, broken)
    } else {
        return EQUAL;
    };
    *rule = broken.words();
    broken.show(sheet.header.quantities, &by.table, values);
    verdict
}

/// The rule by which the script is too wide, none where it is not.
fn wide(sheet: &Paper, possible: bool, script: &Paper) -> Option<Broken> {
    let least = script.tightened()?;
    match possible {
        true => Broken::first(&key(sheet), &least),
        false => Some(Broken { place: 0, bound: NO_RULE }),
    }
}

/// The key of a sheet that some integers satisfy.
fn key(sheet: &Paper) -> Vec<i64> {
    let (n, hidden) = (sheet.header.quantities, sheet.header.hidden);
    let mut key = sheet.table.clone();
    hide(n, &mut key, (0..n).filter(|k| (hidden >> k) & 1 == 1));
    key
}

/// A rule that some integers break; none where the bound is that of no rule.
struct Broken {
    place: usize,
    bound: i64,
}

impl Broken {
    /// The first of a table's rules that integers with these least bounds break.
    fn first(table: &[i64], least: &[i64]) -> Option<Broken> {
        let place = table.iter().zip(least).position(|(bound, least)| least > bound)?;
        Some(Broken { place, bound: table[place] })
    }

    /// Two signed quantity numbers, 0 for none, and the bound.
    fn words(&self) -> [i64; 3] {
        if self.bound == NO_RULE {
            return NOTHING;
        }
        let (k, at) = self.block();
        let signed = |number: usize, minus: usize| if minus == 0 { number as i64 } else { -(number as i64) };
        match at {
            0 | 1 => [signed(k + 1, at), 0, self.bound],
            _ => [signed((at - 2) / 4 + 1, (at - 2) / 2 % 2), signed(k + 1, at % 2), self.bound],
        }
    }

    /// The quantity, from 0, in whose block the place is, and where in the block.
    fn block(&self) -> (usize, usize) {
        let k = (self.place / 2).isqrt();
        (k, self.place - 2 * k * k)
    }

    /// The place of the opposite: of two words or of four it is the one at the other end.
    fn opposite(&self) -> usize {
        match self.block() {
            (_, 0 | 1) => self.place ^ 1,
            (_, at) => self.place + 3 - 2 * ((at - 2) % 4),
        }
    }

    /// Writes integers that satisfy the table and break the rule. The rule may be a script's and its bound far past the
    /// sheet's limit: what is kept of the sums has it at most twice, so that twice as much still fits.
    fn show(&self, n: usize, table: &[i64], values: &mut [i64]) {
        let mut table = table.to_vec();
        if self.bound != NO_RULE {
            let word = &mut table[self.opposite()];
            *word = (-self.bound - 1).min(*word);
        }
        let possible = eliminate(n, &mut table);
        debug_assert!(possible, "the rule can be broken");
        choose::values(n, &table, values);
    }
}
