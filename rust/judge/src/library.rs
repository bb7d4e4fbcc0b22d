//! The eleven calls of the library, and their replies. The judge knows the calls as traits, so that it can be tried on
//! wrong answers too: one for the keys and the assignment of a table, one for the call that begins to hide a quantity, one for the
//! call that puts questions to a table, one for the calls on texts, one for bank reading beside them, one for the two that mark
//! two texts, one for the call that marks two tables.

pub use acornsled::calls::{Header, Reply, Told};

pub const DONE: Reply = Reply { number: 0, value: 0 };
pub const SIZE: Reply = Reply { number: 1, value: 0 };
/// The value is line 0: the limit is passed outside of a text.
pub const PAST_LIMIT: Reply = Reply { number: 3, value: 0 };
/// The same of a question `+q-q` or `-q+q`.
pub const CANCELLING: Reply = Reply { number: 4, value: 0 };
pub const NO_ASSIGNMENT: Reply = Reply { number: 5, value: 0 };
/// The list of questions is empty or too long.
pub const LIST_SIZE: Reply = Reply { number: 8, value: 0 };

/// The lent words or bytes are fewer than needed.
pub fn too_short(needed: usize) -> Reply {
    Reply { number: 6, value: needed }
}

/// A line of a text is malformed or missing.
pub fn malformed(line: usize) -> Reply {
    Reply { number: 2, value: line }
}

/// A line of a text has a number outside its limit.
pub fn past_limit(line: usize) -> Reply {
    Reply { number: 3, value: line }
}

/// A line of a text is a rule `+q-q` or `-q+q`.
pub fn cancelling(line: usize) -> Reply {
    Reply { number: 4, value: line }
}

/// A line of a bank sheet is a rule that is fine by itself, but not in bank form, or not after the rule before it.
pub fn not_canonical(line: usize) -> Reply {
    Reply { number: 9, value: line }
}

/// A text of this length is written.
pub fn written(length: usize) -> Reply {
    Reply { number: 0, value: length }
}

/// The keys that a table can be replaced by. The calls for them differ in nothing but the words that they write.
#[derive(Clone, Copy, PartialEq, Eq, Debug)]
pub enum Key {
    /// document 01's, by its steps
    Plain,
    /// request 2's of document 02, the tightest
    Tight,
}

impl Key {
    pub const BOTH: [Key; 2] = [Key::Plain, Key::Tight];

    pub fn name(self) -> &'static str {
        match self {
            Key::Plain => "key",
            Key::Tight => "tight key",
        }
    }
}

/// Shared by threads, for two may call at once.
pub trait Library: Sync {
    /// Replaces the table's first 2n² words by the key's.
    fn key(&self, n: usize, hidden: u32, table: &mut [i64], workspace: &mut [i64]) -> Reply;

    /// Replaces the table's first 2n² words by those of the tightest key.
    fn tight_key(&self, n: usize, hidden: u32, table: &mut [i64], workspace: &mut [i64]) -> Reply;

    /// The call for the one or the other.
    fn keyed(&self, key: Key, n: usize, hidden: u32, table: &mut [i64], workspace: &mut [i64]) -> Reply {
        match key {
            Key::Plain => self.key(n, hidden, table, workspace),
            Key::Tight => self.tight_key(n, hidden, table, workspace),
        }
    }

    /// Writes n integers that satisfy the table's rules to the first n words of `values`.
    fn assignment(&self, n: usize, table: &[i64], workspace: &mut [i64], values: &mut [i64]) -> Reply;
}

/// Which table in the middle of a hiding step is asked for.
#[derive(Clone, Copy, PartialEq, Eq, Debug)]
pub struct Step {
    /// the set that is hidden before
    pub before: u32,
    /// the quantity whose step it is, from 1
    pub quantity: usize,
    /// how many blocks are done, n + 1 where the step is at its end
    pub blocks: usize,
}

/// Shared by threads, as above.
pub trait Stepper: Sync {
    /// Replaces the table's first 2n² words by those that it has in the middle of the step.
    fn step(&self, n: usize, step: Step, table: &mut [i64], workspace: &mut [i64]) -> Reply;
}

/// Shared by threads, as above.
pub trait Asker: Sync {
    /// Writes to bit i of `answers` whether all integers that satisfy the table meet the question with i others before it.
    fn ask(&self, n: usize, table: &[i64], questions: &[i64], workspace: &mut [i64], answers: &mut u64) -> Reply;
}

/// Shared by threads, as above.
pub trait Texts: Sync {
    /// Replaces the header and the table's first 2n² words by what the text says.
    fn read(&self, text: &[u8], table: &mut [i64], header: &mut Header) -> Reply;

    /// Writes the table's text to the first bytes of `out`.
    fn write(&self, n: usize, hidden: u32, table: &[i64], out: &mut [u8]) -> Reply;
}

/// Shared by threads, as above. Bank reading is held against the calls on any text, so that it comes with them.
pub trait BankReader: Texts {
    /// As `read`, of a bank sheet: one whose rules stand in place order, each place once, the lower quantity first and no term
    /// doubled.
    fn bank_read(&self, text: &[u8], table: &mut [i64], header: &mut Header) -> Reply;
}

/// What marking answers where nothing is refused (document 01, 'Programs and host').
pub const EQUAL: u32 = 100;
pub const LOOSE: u32 = 101;
pub const TIGHT: u32 = 102;
/// The script's n or hidden list is another, or one of its rules names a hidden quantity.
pub const MISMATCH: u32 = 7;
/// The words for the integers are fewer than the sheet's quantities.
pub const SHORT: u32 = 6;

/// Which paper a refusal is about, as marking writes it; 0 stands beside a verdict.
pub const NO_PAPER: u32 = 0;
pub const SHEET: u32 = 1;
pub const SCRIPT: u32 = 2;
pub const BOTH: u32 = 3;

/// The three words of a rule where there is none.
pub const NOTHING: [i64; 3] = [0; 3];

/// Shared by threads, as above.
pub trait Marker: Sync {
    /// The number of the verdict on two texts, or of the refusal alone.
    fn mark(&self, sheet: &[u8], script: &[u8]) -> u32;

    /// The same number, or 6 where the words of `values` are too few, with what is told beside it; for loose and tight the
    /// integers that show the verdict are written to the first n words of `values`.
    fn mark_texts(&self, sheet: &[u8], script: &[u8], values: &mut [i64], told: &mut Told) -> u32;
}

/// What marking two tables is given and does not change: both are over n quantities, with one hidden set.
#[derive(Clone, Copy)]
pub struct Papers<'a> {
    pub n: usize,
    pub hidden: u32,
    pub sheet: &'a [i64],
    pub script: &'a [i64],
}

/// Shared by threads, as above.
pub trait TableMarker: Sync {
    /// The number of the verdict on two tables or of the refusal, with the length needed beside 6, else 0; for loose and
    /// tight the rule, as in `Told`, and the integers that show the verdict, in the first n words of `values`.
    fn mark_tables(&self, papers: Papers, workspace: &mut [i64], values: &mut [i64], rule: &mut [i64; 3]) -> Reply;
}

/// A reply in words.
pub fn spelled(Reply { number, value }: Reply) -> String {
    format!("{number} with value {value}")
}
