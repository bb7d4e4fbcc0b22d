//! Where 6 stands among the refusals, and the mistakes in that.

use super::{Trap, Wrong};
use judge::library::{Told, BOTH, EQUAL, MISMATCH};
use judge::marking::due::{read, read_script};
use judge::meaning::MOST_QUANTITIES;
use judge::plain_reasons;

const SHORT: u32 = 6;

impl Wrong {
    /// The number, by the refusals in this trap's order.
    pub fn ordered(&self, sheet: &[u8], script: &[u8], values: &mut [i64], told: &mut Told) -> u32 {
        let mut free = *told;
        let number = plain_reasons::mark_texts(sheet, script, &mut [0; MOST_QUANTITIES], &mut free);
        let n = |text: &[u8]| read(text).map_or(0, |paper| paper.n);
        let needed = match (self.trap, number) {
            (Trap::SixBeforeScript, _) => n(sheet),
            (Trap::SixByScript, MISMATCH) => read_script(script).map_or(0, |paper| paper.n),
            (Trap::SixByLargest, MISMATCH | EQUAL..) => MOST_QUANTITIES,
            (Trap::NoSix, _) | (Trap::SixAfterSeven, MISMATCH) | (Trap::SixWhereWritten, EQUAL) => 0,
            _ => return plain_reasons::mark_texts(sheet, script, values, told),
        };
        if values.len() < needed {
            (told.paper, told.value) = (BOTH, needed);
            return SHORT;
        }
        match number {
            // the integers do not fit, so that none is written
            EQUAL.. if values.len() < n(sheet) => *told = free,
            MISMATCH => *told = free,
            _ => return plain_reasons::mark_texts(sheet, script, values, told),
        }
        number
    }
}
