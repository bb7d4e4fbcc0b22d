//! A marker over the plain one that falls into one of the traps of marking with reasons.

mod order;
mod rule;
mod trap;

use judge::library::{Marker, Told, EQUAL, LOOSE, MISMATCH, NOTHING, TIGHT};
use judge::marking::due::{read, read_script};
use judge::meaning::is_in;
use judge::plain_mark;
use std::sync::atomic::{AtomicI64, Ordering::SeqCst};
pub use trap::Trap;

pub struct Wrong {
    trap: Trap,
    calls: AtomicI64,
}

/// A call that has been answered rightly, with what was there before it.
pub struct Answered<'a> {
    sheet: &'a [u8],
    script: &'a [u8],
    number: u32,
    values: &'a mut [i64],
    told: &'a mut Told,
    before: (Vec<i64>, Told),
}

impl Marker for Wrong {
    /// Right always: these traps are those of the other call.
    fn mark(&self, sheet: &[u8], script: &[u8]) -> u32 {
        plain_mark::mark(sheet, script)
    }

    fn mark_texts(&self, sheet: &[u8], script: &[u8], values: &mut [i64], told: &mut Told) -> u32 {
        let before = (values.to_vec(), *told);
        let number = self.ordered(sheet, script, values, told);
        let mut answered = Answered { sheet, script, number, values, told, before };
        self.paper(&mut answered);
        self.value(&mut answered);
        self.quantities(&mut answered);
        self.rule(&mut answered);
        self.integers(&mut answered);
        number
    }
}

impl Wrong {
    pub fn new(trap: Trap) -> Wrong {
        Wrong { trap, calls: AtomicI64::new(0) }
    }

    fn paper(&self, Answered { number, told, before, .. }: &mut Answered) {
        match (self.trap, *number, told.paper) {
            (Trap::PapersExchanged, _, 1 | 2) => told.paper = 3 - told.paper,
            (Trap::SevenOfScript, MISMATCH, _) => told.paper = 2,
            (Trap::SixOfSheet, 6, _) => told.paper = 1,
            (Trap::NoPaperWithVerdict, EQUAL..=TIGHT, _) => told.paper = before.1.paper,
            _ => {}
        }
    }

    fn value(&self, Answered { number, values, told, before, .. }: &mut Answered) {
        match (self.trap, *number) {
            (Trap::ValueDropped, _) => told.value = 0,
            (Trap::NoValueWithVerdict, EQUAL..=TIGHT) => told.value = before.1.value,
            (Trap::LinesFromZero, 2..=4) => told.value -= 1,
            (Trap::LineOfSeven, MISMATCH) => told.value = 4,
            (Trap::LengthTwice, 6) => told.value *= 2,
            (Trap::LengthLent, 6) => told.value = values.len(),
            (Trap::LengthMissing, 6) => told.value -= values.len(),
            _ => {}
        }
    }

    fn quantities(&self, Answered { sheet, number, values, told, before, .. }: &mut Answered) {
        match (self.trap, *number) {
            (Trap::NoN, _) | (Trap::NoNWhenEqual, EQUAL) => told.quantities = before.1.quantities,
            (Trap::NWhenRefused, 6 | MISMATCH) => told.quantities = read(sheet).expect("the sheet is read").n,
            (Trap::NLent, EQUAL..=TIGHT) => told.quantities = values.len(),
            _ => {}
        }
    }

    fn integers(&self, answered: &mut Answered) {
        let Answered { sheet, script, number, values, told, before } = answered;
        match (self.trap, *number) {
            (Trap::ValuesWhenEqual, EQUAL) => values.fill(0),
            (Trap::ValuesWhenRefused, 1..=7) => values.fill(0),
            (Trap::ValuesPastN, LOOSE | TIGHT) => {
                values.iter_mut().skip(told.quantities).take(1).for_each(|word| *word = 0)
            }
            (Trap::LastUnwritten, TIGHT) => values[told.quantities - 1] = before.0[told.quantities - 1],
            (Trap::HiddenOne, LOOSE) => hidden(sheet, values, 1),
            (Trap::HiddenZero, TIGHT) => hidden(sheet, values, 0),
            (Trap::Zeros, LOOSE) => values[..told.quantities].fill(0),
            // a script without rules allows all integers, and this sheet none
            (Trap::Others, LOOSE) if told.rule == NOTHING => {
                let free = read_script(script).is_ok_and(|script| script.rules.is_empty() && !is_in(script.hidden, 1));
                values[0] += if free { self.calls.fetch_add(1, SeqCst) } else { 0 };
            }
            _ => {}
        }
    }
}

/// Puts an integer in for each hidden quantity.
fn hidden(sheet: &[u8], values: &mut [i64], value: i64) {
    let sheet = read(sheet).expect("the sheet is read");
    (1..=sheet.n).filter(|&q| is_in(sheet.hidden, q)).for_each(|q| values[q - 1] = value);
}
