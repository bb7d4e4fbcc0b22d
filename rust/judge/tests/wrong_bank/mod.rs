//! A bank reading that compares places by their formula, rule after rule, and falls into one of the traps that the judge
//! has to see. Ordinary reading and writing are right.

mod order;
mod reading;
mod trap;

use judge::library::{BankReader, Header, Reply, Texts, SIZE};
use judge::plain_text::Plain;
use std::sync::atomic::{AtomicUsize, Ordering::SeqCst};
use std::thread;
pub use trap::Trap;

pub struct Wrong {
    trap: Trap,
    /// the calls that are being made
    under_way: AtomicUsize,
    /// the place that a rule has to be at or after
    kept: AtomicUsize,
}

impl Texts for Wrong {
    fn read(&self, text: &[u8], table: &mut [i64], header: &mut Header) -> Reply {
        Plain.read(text, table, header)
    }

    fn write(&self, n: usize, hidden: u32, table: &[i64], out: &mut [u8]) -> Reply {
        Plain.write(n, hidden, table, out)
    }
}

impl BankReader for Wrong {
    fn bank_read(&self, text: &[u8], table: &mut [i64], header: &mut Header) -> Reply {
        let beside = self.under_way.fetch_add(1, SeqCst) > 0;
        if self.trap == Trap::RefusesSecondCaller {
            // the other thread gets its turn also where there is one processor
            thread::yield_now();
        }
        let reply = self.reading(text, table, header);
        self.under_way.fetch_sub(1, SeqCst);
        spoil(table, self.trap == Trap::TableLost(reply.number));
        if self.trap == Trap::QuantitiesLost(reply.number) {
            header.quantities = !header.quantities;
        }
        if self.trap == Trap::HiddenLost(reply.number) {
            header.hidden = !header.hidden;
        }
        match self.trap {
            Trap::RefusesSecondCaller if beside => SIZE,
            Trap::ValueBeside(number) if number == reply.number => Reply { value: 1, ..reply },
            _ => reply,
        }
    }
}

impl Wrong {
    pub fn new(trap: Trap) -> Wrong {
        Wrong { trap, under_way: AtomicUsize::new(0), kept: AtomicUsize::new(0) }
    }
}

/// Changes the first of these words, if there is one and it is due.
fn spoil(words: &mut [i64], due: bool) {
    if due {
        words.iter_mut().take(1).for_each(|word| *word = !*word);
    }
}
