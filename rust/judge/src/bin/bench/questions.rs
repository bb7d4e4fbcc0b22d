//! The questions that are put to each sheet: as many as may be, on terms of every form, each with the least bound of its term or
//! with one less, so that both answers come.

use judge::asking::given::{place, Words};
use judge::library::DONE;
use judge::meaning::{size, Literal, Term, MOST_QUESTIONS, NO_RULE};
use judge::plain;
use judge::random::Random;
use judge::sheets::Sheet;

/// The words of the list.
pub fn of(sheet: &Sheet, random: &mut Random) -> Vec<i64> {
    let mut tight = sheet.table.clone();
    assert_eq!(plain::tight_key(sheet.n, 0, &mut tight, &mut vec![0; size(sheet.n)]), DONE);
    (0..MOST_QUESTIONS).flat_map(|_| question(sheet.n, &tight, random)).collect()
}

fn question(n: usize, tight: &[i64], random: &mut Random) -> Words {
    let literal = |random: &mut Random| Literal { sign: random.pick(&[1, -1]), quantity: 1 + random.below(n) };
    let first = literal(random);
    let second = match random.below(4) {
        0 => None,
        1 => Some(first),
        // the same quantity with the other sign would cancel
        _ => Some(literal(random)).filter(|second| second.quantity != first.quantity),
    };
    let (place, times) = place(&Term { first, second });
    let least = if tight[place] == NO_RULE { 0 } else { times * tight[place] };
    let signed = |literal: Literal| literal.sign * literal.quantity as i64;
    [signed(first), second.map_or(0, signed), least - random.within(0, 1)]
}
