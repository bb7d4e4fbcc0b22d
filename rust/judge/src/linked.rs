//! The library that this program is linked with, by the numbers that C gets: the calls of the crate `acornsled`, which are
//! judged here with the library.

use crate::library::{
    Asker, BankReader, Header, Library, Marker, Papers, Reply, Step, Stepper, TableMarker, Texts, Told,
};
use acornsled::calls;

pub struct Linked;

impl Library for Linked {
    fn key(&self, n: usize, hidden: u32, table: &mut [i64], workspace: &mut [i64]) -> Reply {
        calls::key(n, hidden, table, workspace)
    }

    fn tight_key(&self, n: usize, hidden: u32, table: &mut [i64], workspace: &mut [i64]) -> Reply {
        calls::tight_key(n, hidden, table, workspace)
    }

    fn assignment(&self, n: usize, table: &[i64], workspace: &mut [i64], values: &mut [i64]) -> Reply {
        calls::assignment(n, table, workspace, values)
    }
}

impl Stepper for Linked {
    fn step(&self, n: usize, step: Step, table: &mut [i64], workspace: &mut [i64]) -> Reply {
        let Step { before, quantity, blocks } = step;
        calls::step(n, before, quantity, blocks, table, workspace)
    }
}

impl Asker for Linked {
    fn ask(&self, n: usize, table: &[i64], questions: &[i64], workspace: &mut [i64], answers: &mut u64) -> Reply {
        calls::ask(n, table, questions, workspace, answers)
    }
}

impl Texts for Linked {
    fn read(&self, text: &[u8], table: &mut [i64], header: &mut Header) -> Reply {
        calls::read(text, table, header)
    }

    fn write(&self, n: usize, hidden: u32, table: &[i64], out: &mut [u8]) -> Reply {
        calls::write(n, hidden, table, out)
    }
}

impl BankReader for Linked {
    fn bank_read(&self, text: &[u8], table: &mut [i64], header: &mut Header) -> Reply {
        calls::bank_read(text, table, header)
    }
}

impl Marker for Linked {
    fn mark(&self, sheet: &[u8], script: &[u8]) -> u32 {
        calls::mark(sheet, script)
    }

    fn mark_texts(&self, sheet: &[u8], script: &[u8], values: &mut [i64], told: &mut Told) -> u32 {
        calls::mark_texts(sheet, script, values, told)
    }
}

impl TableMarker for Linked {
    fn mark_tables(&self, papers: Papers, workspace: &mut [i64], values: &mut [i64], rule: &mut [i64; 3]) -> Reply {
        let Papers { n, hidden, sheet, script } = papers;
        calls::mark_tables(n, hidden, sheet, script, workspace, values, rule)
    }
}
