//! The limits of a sheet and of a script, and lengths that are enough for every one.

/// The most quantities.
pub const MOST_QUANTITIES: usize = 32;
/// The largest magnitude of a bound in a sheet; [`script_bound`] has that of a script.
pub const MOST_BOUND: i64 = 1_000_000_000;
/// The most rule lines.
pub const MOST_RULES: usize = 2_048;
/// The most bytes of a text that is read.
pub const MOST_BYTES: usize = 65_536;
/// The most questions that can be put to a sheet in one call.
pub const MOST_QUESTIONS: usize = 64;
/// Words enough for every table, and for every workspace of a key, of a tightest key, of a hiding step, of an assignment or of
/// questions.
pub const TABLE_WORDS: usize = 2_048;
/// Words enough for every workspace of marking two tables.
pub const MARKING_WORDS: usize = 4_096;
/// Bytes enough for every text that is written.
pub const TEXT_BYTES: usize = 67_703;
/// The word of a term without a rule.
pub const NO_RULE: i64 = i64::MAX;

/// The largest magnitude of a bound in a script with these hidden quantities, bit q - 1 for quantity q: a sheet's, doubled for
/// each of them. The bounds of a key are never larger; those of a tightest key may be.
///
/// ```
/// use acornsled::limits::{script_bound, MOST_BOUND};
///
/// assert_eq!(script_bound(0), MOST_BOUND);
/// assert_eq!(script_bound(0b010), 2_000_000_000);
/// ```
pub const fn script_bound(hidden: u32) -> i64 {
    // with all 32 of them it is below 2^62
    MOST_BOUND << hidden.count_ones()
}
