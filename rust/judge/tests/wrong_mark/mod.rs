//! A marker over the judge's own reader and verdicts that falls into one of the traps that the judge has to see.

mod limits;
mod refusals;
mod trap;
mod verdicts;

use judge::library::{Marker, Told};
use judge::plain_reasons;
use std::sync::atomic::{AtomicUsize, Ordering::SeqCst};
use std::sync::Mutex;
use std::thread;
pub use trap::Trap;

pub struct Wrong {
    trap: Trap,
    /// the calls that are being made
    under_way: AtomicUsize,
    /// of the call before: the length of the sheet, and the number
    before: Mutex<Option<(usize, u32)>>,
}

impl Marker for Wrong {
    fn mark(&self, sheet: &[u8], script: &[u8]) -> u32 {
        let beside = self.under_way.fetch_add(1, SeqCst) > 0;
        if self.trap == Trap::RefusesSecondCaller {
            // the other thread gets its turn also where there is one processor
            thread::yield_now();
        }
        let number = self.remembered(sheet, || self.marked(sheet, script).unwrap_or_else(|refusal| refusal));
        self.under_way.fetch_sub(1, SeqCst);
        match beside && self.trap == Trap::RefusesSecondCaller {
            true => 1,
            false => number,
        }
    }

    /// Right always: these traps are those of the number alone.
    fn mark_texts(&self, sheet: &[u8], script: &[u8], values: &mut [i64], told: &mut Told) -> u32 {
        plain_reasons::mark_texts(sheet, script, values, told)
    }
}

impl Wrong {
    pub fn new(trap: Trap) -> Wrong {
        Wrong { trap, under_way: AtomicUsize::new(0), before: Mutex::new(None) }
    }

    fn marked(&self, sheet: &[u8], script: &[u8]) -> Result<u32, u32> {
        let (sheet, script) = self.accepted(sheet, script)?;
        Ok(self.verdict(&sheet, &script))
    }

    fn remembered(&self, sheet: &[u8], call: impl FnOnce() -> u32) -> u32 {
        let mut before = self.before.lock().expect("no call panics");
        match *before {
            Some((length, number)) if length == sheet.len() && self.trap == Trap::Remembers => number,
            _ => {
                drop(before);
                let number = call();
                before = self.before.lock().expect("no call panics");
                *before = Some((sheet.len(), number));
                number
            }
        }
    }
}
