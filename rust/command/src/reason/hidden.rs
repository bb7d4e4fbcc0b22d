//! The hidden quantities that a text lists.

use super::cursor::Numeral;
use super::form;
use acornsled::limits::MOST_QUANTITIES;

/// As a set: bit q - 1 for quantity q.
#[derive(Clone, Copy, PartialEq, Eq, Debug)]
pub struct Hidden(pub u32);

impl Hidden {
    /// Those that the line lists; none where it is malformed, and none past the most quantities.
    pub fn of(line: &[u8]) -> Hidden {
        let list = form::hidden(line).unwrap_or_default();
        let numbers = list.iter().filter_map(Numeral::value).filter(|number| (1..=MOST_QUANTITIES).contains(number));
        Hidden(numbers.fold(0, |set, quantity| set | 1 << (quantity - 1)))
    }

    pub fn has(self, quantity: usize) -> bool {
        (1..=MOST_QUANTITIES).contains(&quantity) && self.0 >> (quantity - 1) & 1 == 1
    }

    /// In a list, increasing.
    pub fn quantities(self) -> Vec<usize> {
        (1..=MOST_QUANTITIES).filter(|&quantity| self.has(quantity)).collect()
    }
}
