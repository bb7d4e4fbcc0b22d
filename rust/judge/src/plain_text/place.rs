//! The numbering of terms by literals, as in `plain`: quantity q has the literals 2 (q - 1), for plus, and 2 (q - 1) +
//! 1.

/// The place of a literal by itself.
pub fn of_one(x: usize) -> usize {
    2 * (x / 2) * (x / 2) + x % 2
}

/// The place of two literals of different quantities.
pub fn of_two(x: usize, y: usize) -> usize {
    let (low, high) = (x.min(y), x.max(y));
    2 * (high / 2) * (high / 2) + 2 + 2 * low + high % 2
}
