//! A library over the judge's own reader and writer that falls into one of the traps that the judge has to see.

mod reading;
mod taken;
mod trap;
mod writing;

use judge::library::{Header, Reply, Texts, SIZE};
use std::sync::atomic::{AtomicUsize, Ordering::SeqCst};
use std::thread;
pub use trap::Trap;

pub struct Wrong {
    trap: Trap,
    /// the calls that are being made
    under_way: AtomicUsize,
}

impl Texts for Wrong {
    fn read(&self, text: &[u8], table: &mut [i64], header: &mut Header) -> Reply {
        self.told(|| {
            let reply = self.reading(text, table, header);
            spoil(table, self.trap == Trap::TableLost(reply.number));
            if self.trap == Trap::QuantitiesLost(reply.number) {
                header.quantities = !header.quantities;
            }
            if self.trap == Trap::HiddenLost(reply.number) {
                header.hidden = !header.hidden;
            }
            reply
        })
    }

    fn write(&self, n: usize, hidden: u32, table: &[i64], out: &mut [u8]) -> Reply {
        self.told(|| {
            let reply = self.writing(n, hidden, table, out);
            if self.trap == Trap::OutputLost(reply.number) {
                out.iter_mut().take(1).for_each(|byte| *byte = !*byte);
            }
            reply
        })
    }
}

impl Wrong {
    pub fn new(trap: Trap) -> Wrong {
        Wrong { trap, under_way: AtomicUsize::new(0) }
    }

    /// The reply of a call as it reaches the caller.
    fn told(&self, call: impl FnOnce() -> Reply) -> Reply {
        let beside = self.under_way.fetch_add(1, SeqCst) > 0;
        if self.trap == Trap::RefusesSecondCaller {
            // the other thread gets its turn also where there is one processor
            thread::yield_now();
        }
        let reply = call();
        self.under_way.fetch_sub(1, SeqCst);
        if beside && self.trap == Trap::RefusesSecondCaller {
            return SIZE;
        }
        match self.trap == Trap::ValueBeside(reply.number) {
            true => Reply { value: 1, ..reply },
            false => reply,
        }
    }
}

/// Changes the first of these words, if there is one and it is due.
fn spoil(words: &mut [i64], due: bool) {
    if due {
        words.iter_mut().take(1).for_each(|word| *word = !*word);
    }
}
