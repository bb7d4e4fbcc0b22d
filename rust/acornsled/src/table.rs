//! Tables that hold their own words, the keys of a text, the steps to them, and questions to it.

use crate::calls::{self, Header, Reply};
use crate::limits::{MARKING_WORDS, MOST_QUANTITIES, TABLE_WORDS, TEXT_BYTES};
use crate::{Refusal, Rule, Verdict};

/// A paper read: a word for each term in place order, `limits::NO_RULE` where there is no rule. n and the hidden set are the
/// caller's to change as well; a call refuses what does not fit.
///
/// # Panics
///
/// Its functions do, where the library is a newer one and answers a number that this crate does not know.
#[derive(Clone, PartialEq, Eq, Debug)]
pub struct Table {
    pub quantities: usize,
    /// bit q - 1 for quantity q
    pub hidden: u32,
    pub words: Vec<i64>,
}

impl Table {
    /// The table of a text.
    pub fn read(text: &[u8]) -> Result<Table, Refusal> {
        Table::read_by(calls::read, text)
    }

    /// The table of a bank sheet, a text whose rules stand in place order, each place once, the lower quantity first and no
    /// term doubled. It is the table that [`Table::read`] gives, and the text is, byte for byte, what [`Table::text`] gives for
    /// it, so that each table has one. A rule that is fine by itself and stands otherwise is refused with 9; its line ends the
    /// reading, as every line does that fails.
    ///
    /// ```no_run
    /// use acornsled::{Refusal, Table};
    ///
    /// # fn main() -> Result<(), Refusal> {
    /// let sheet = b"quantities=2\nhidden=\nrules=2\nrule=+2+1:5\nrule=+1+1:7\n";
    /// assert_eq!(Table::read_bank(sheet), Err(Refusal::NotCanonical { line: 4 }));
    /// let bank = Table::read(sheet)?.text()?;
    /// assert_eq!(bank, b"quantities=2\nhidden=\nrules=2\nrule=+1:3\nrule=+1+2:5\n");
    /// assert_eq!(Table::read_bank(&bank)?, Table::read(sheet)?);
    /// # Ok(())
    /// # }
    /// ```
    pub fn read_bank(text: &[u8]) -> Result<Table, Refusal> {
        Table::read_by(calls::bank_read, text)
    }

    /// The table that a call reads of a text.
    fn read_by(call: fn(&[u8], &mut [i64], &mut Header) -> Reply, text: &[u8]) -> Result<Table, Refusal> {
        let mut words = vec![0; TABLE_WORDS];
        let mut header = Header { quantities: 0, hidden: 0 };
        done(call(text, &mut words, &mut header))?;
        let Header { quantities, hidden } = header;
        words.truncate(2 * quantities * quantities);
        Ok(Table { quantities, hidden, words })
    }

    /// The table's text, with its rules in place order. Where the bounds are in a sheet's limits it is a bank sheet, and
    /// [`Table::read_bank`] gives the table back.
    pub fn text(&self) -> Result<Vec<u8>, Refusal> {
        let mut out = vec![0; TEXT_BYTES];
        let length = done(calls::write(self.quantities, self.hidden, &self.words, &mut out))?;
        out.truncate(length);
        Ok(out)
    }

    /// The key, by document 01's steps: what the table implies for the visible quantities alone. Marking takes the rule of a
    /// loose verdict from it, and handed in as a script it is always accepted, and equal.
    pub fn key(mut self) -> Result<Table, Refusal> {
        let mut workspace = vec![0; TABLE_WORDS];
        done(calls::key(self.quantities, self.hidden, &mut self.words, &mut workspace))?;
        Ok(self)
    }

    /// The tightest key: a term has a rule exactly where it is of visible quantities and some bound on it is met by all
    /// integers that satisfy the table, and the rule has the least such bound. Two tables with one n and one hidden set, both
    /// satisfied by some integers, have the same tightest key exactly when they allow the same visible integers. Its bounds may
    /// be past [`script_bound`](crate::limits::script_bound); where none is, it is accepted as a script, and equal.
    pub fn tight_key(mut self) -> Result<Table, Refusal> {
        let mut workspace = vec![0; TABLE_WORDS];
        done(calls::tight_key(self.quantities, self.hidden, &mut self.words, &mut workspace))?;
        Ok(self)
    }

    /// The table at a point of a hiding step. The quantities of the set `before` are hidden first, as [`Table::key`] hides
    /// them; then the step that hides `quantity` is begun, and done on its first `blocks` blocks. The block of a quantity has the
    /// terms of it alone and of it with each lower quantity; the work on it puts in the sums that have their place there and
    /// changes nothing else. With 0 blocks nothing of the step is done, with as many as there are quantities all sums are in, and
    /// with one more the rules that name `quantity` are gone too. The table's own hidden set does not count, and stays. A set, a
    /// quantity or a number of blocks that the table does not have is refused with 3, and a table that no integers satisfy with
    /// 5.
    pub fn step(mut self, before: u32, quantity: usize, blocks: usize) -> Result<Table, Refusal> {
        let mut workspace = vec![0; TABLE_WORDS];
        done(calls::step(self.quantities, before, quantity, blocks, &mut self.words, &mut workspace))?;
        Ok(self)
    }

    /// Integers, one for each quantity, that satisfy the table.
    pub fn assignment(&self) -> Result<Vec<i64>, Refusal> {
        let mut workspace = vec![0; TABLE_WORDS];
        // n is tested by the call, and may be any number before it
        let mut values = vec![0; MOST_QUANTITIES];
        done(calls::assignment(self.quantities, &self.words, &mut workspace, &mut values))?;
        values.truncate(self.quantities);
        Ok(values)
    }

    /// Whether all integers that satisfy the table meet the question, for each of up to 64 in their order. A question is a rule
    /// as written: its quantities may stand in either order, and twice quantity 1 is at most 7 by 1, 1 and 7. No quantity is
    /// taken as hidden. An empty or a longer list is refused with 8; a question outside a sheet's limits with 3 and one whose
    /// quantities cancel with 4, both with line 0; a table that no integers satisfy with 5.
    pub fn ask(&self, questions: &[Rule]) -> Result<Vec<bool>, Refusal> {
        let words: Vec<i64> = questions.iter().flat_map(|question| question.words()).collect();
        let mut workspace = vec![0; TABLE_WORDS];
        let mut answers = 0;
        done(calls::ask(self.quantities, &self.words, &words, &mut workspace, &mut answers))?;
        Ok((0..questions.len()).map(|at| answers >> at & 1 == 1).collect())
    }

    /// The verdict on a script, this table being the sheet. A script with another n or hidden set is refused with 7 before
    /// anything else is looked at. 5 is no answer: a sheet that nothing satisfies is marked.
    pub fn mark(&self, script: &Table) -> Result<Verdict, Refusal> {
        let Table { quantities: n, hidden, ref words } = *self;
        if (script.quantities, script.hidden) != (n, hidden) {
            return Err(Refusal::Mismatch);
        }
        let mut workspace = vec![0; MARKING_WORDS];
        let mut values = vec![0; MOST_QUANTITIES];
        let mut rule = [0; 3];
        let reply = calls::mark_tables(n, hidden, words, &script.words, &mut workspace, &mut values, &mut rule);
        values.truncate(n);
        Verdict::of(reply.number, rule, &values).ok_or_else(|| Refusal::of(reply).expect("0 is no answer of marking"))
    }
}

/// The text of the key of a sheet's text, by document 01's steps.
///
/// # Panics
///
/// As the functions of [`Table`].
pub fn key(sheet: &[u8]) -> Result<Vec<u8>, Refusal> {
    Table::read(sheet)?.key()?.text()
}

/// The text of the tightest key of a sheet's text: what the program *key* prints. Sheets of one n and one hidden set that allow
/// the same visible integers have one such text.
///
/// ```no_run
/// let short = b"quantities=2\nhidden=\nrules=2\nrule=+1:1\nrule=+2:1\n";
/// let long = b"quantities=2\nhidden=\nrules=3\nrule=+1:1\nrule=+2:1\nrule=+1+2:7\n";
/// assert_eq!(acornsled::tight_key(short), acornsled::tight_key(long));
/// ```
///
/// # Panics
///
/// As the functions of [`Table`].
pub fn tight_key(sheet: &[u8]) -> Result<Vec<u8>, Refusal> {
    Table::read(sheet)?.tight_key()?.text()
}

/// The text of a sheet's table at a point of the step that hides `quantity`, as its key is made: those of its hidden
/// quantities that are lower are hidden before, and the step is done on its first `blocks` blocks, as by [`Table::step`].
///
/// ```no_run
/// let sheet = b"quantities=3\nhidden=2\nrules=3\nrule=+1+2:5\nrule=+1-2:2\nrule=+3-2:0\n";
/// // one block is done, and has the sum of the first two rules, halved
/// let begun = b"quantities=3\nhidden=2\nrules=4\nrule=+1:3\nrule=+1+2:5\nrule=+1-2:2\nrule=-2+3:0\n";
/// assert_eq!(acornsled::step(sheet, 2, 1), Ok(begun.to_vec()));
/// // three blocks, and then the rules that name quantity 2 are taken away
/// assert_eq!(acornsled::step(sheet, 2, 4), acornsled::key(sheet));
/// ```
///
/// # Panics
///
/// As the functions of [`Table`].
pub fn step(sheet: &[u8], quantity: usize, blocks: usize) -> Result<Vec<u8>, Refusal> {
    let table = Table::read(sheet)?;
    // of a quantity that is none the call is refused, whatever comes before it
    let lower = (1_u64 << (quantity.clamp(1, MOST_QUANTITIES + 1) - 1)) - 1;
    let before = table.hidden & lower as u32;
    table.step(before, quantity, blocks)?.text()
}

/// The answers to questions that are put to a sheet's text, as [`Table::ask`] gives them; a refusal of the text has its line.
///
/// ```no_run
/// use acornsled::Rule;
///
/// let sheet = b"quantities=3\nhidden=2\nrules=3\nrule=+1+2:5\nrule=+1-2:2\nrule=+3-2:0\n";
/// let questions = [Rule::One { term: 1, bound: 3 }, Rule::Two { first: 3, second: 1, bound: 4 }];
/// assert_eq!(acornsled::ask(sheet, &questions), Ok(vec![true, false]));
/// ```
///
/// # Panics
///
/// As the functions of [`Table`].
pub fn ask(sheet: &[u8], questions: &[Rule]) -> Result<Vec<bool>, Refusal> {
    Table::read(sheet)?.ask(questions)
}

/// What is returned beside 0, or the refusal.
fn done(reply: Reply) -> Result<usize, Refusal> {
    match Refusal::of(reply) {
        None => Ok(reply.value),
        Some(refusal) => Err(refusal),
    }
}
