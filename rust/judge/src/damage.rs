//! Calls that are damaged in one way or several: the first refusal of document 01's order is due, and nothing else may
//! have happened. Damage that a call does not see, as short values in the call for a key, leaves it to be judged as on a
//! sound sheet.

use crate::calls::{same_reply, AssignmentCall, KeyCall};
use crate::check;
use crate::counts::Counts;
use crate::due::Due;
use crate::lent::{further, Lent};
use crate::library::{too_short, Key, Library, Reply, PAST_LIMIT, SIZE};
use crate::meaning::{rules, size, LIMIT, MOST_QUANTITIES, NO_RULE};
use crate::random::Random;
use crate::sheets::Sheet;
use std::fmt;

/// What a damaged call is given.
struct Damaged {
    n: usize,
    hidden: u32,
    table: Vec<i64>,
    workspace: usize,
    values: usize,
}

/// Judges the three calls on a sheet that is damaged in at least one way.
pub fn all_calls(library: &dyn Library, sheet: &Sheet, random: &mut Random, counts: &mut Counts) -> Result<(), String> {
    let damaged = Damaged::from(sheet, random);
    for form in Key::BOTH {
        let reply = key(library, form, &damaged, random).map_err(|e| format!("{}: {e}\n{damaged}", form.name()))?;
        counts.damaged[reply.number as usize] += 1;
    }
    let reply = assignment(library, &damaged, random).map_err(|e| format!("assignment: {e}\n{damaged}"))?;
    counts.damaged[reply.number as usize] += 1;
    Ok(())
}

fn key(library: &dyn Library, key: Key, damaged: &Damaged, random: &mut Random) -> Result<Reply, String> {
    let (n, hidden) = (damaged.n, damaged.hidden);
    let table = Lent::new(&damaged.table, random);
    let workspace = Lent::new(&random.words(damaged.workspace), random);
    let mut call = KeyCall { key, n, hidden, table, workspace };
    let Some(refusal) = damaged.refusal_of_key() else {
        return check::key(library, &Due::of(&damaged.sheet())?, call);
    };
    let reply = call.run(library);
    same_reply(reply, refusal)?;
    call.memory(reply)?;
    Ok(reply)
}

fn assignment(library: &dyn Library, damaged: &Damaged, random: &mut Random) -> Result<Reply, String> {
    let n = damaged.n;
    let table = Lent::new(&damaged.table, random);
    let workspace = Lent::new(&random.words(damaged.workspace), random);
    let values = Lent::new(&random.words(damaged.values), random);
    let mut call = AssignmentCall { n, table, workspace, values };
    let Some(refusal) = damaged.refusal_of_assignment() else {
        return check::assignment(library, &Due::of(&damaged.sheet())?, call);
    };
    let reply = call.run(library);
    same_reply(reply, refusal)?;
    call.memory(reply)?;
    Ok(reply)
}

impl Damaged {
    fn from(sheet: &Sheet, random: &mut Random) -> Damaged {
        let mut damaged = Damaged::sound(sheet, random);
        let certain = random.below(6);
        // n comes last: the other ways go by the sheet's
        let ways = [Damaged::word, Damaged::hidden, Damaged::table, Damaged::workspace, Damaged::values, Damaged::n];
        for (i, way) in ways.iter().enumerate() {
            if i == certain || random.chance(10) {
                way(&mut damaged, random);
            }
        }
        damaged
    }

    /// Nothing damaged yet. At times more is lent than needed, so that the length needed is not that of another slice.
    fn sound(sheet: &Sheet, random: &mut Random) -> Damaged {
        let (n, hidden) = (sheet.n, sheet.hidden);
        let behind = further(random);
        let table = [&sheet.table[..], &random.words(behind)].concat();
        let workspace = size(n) + further(random);
        let values = n + further(random);
        Damaged { n, hidden, table, workspace, values }
    }

    /// A word past the limit, by one or by far.
    fn word(&mut self, random: &mut Random) {
        let words = [LIMIT + 1, -LIMIT - 1, i64::MIN, i64::MIN + 1, NO_RULE - 1, 1 << 62, -(1 << 62)];
        let place = random.edge(size(self.n));
        self.table[place] = random.pick(&words);
    }

    /// A hidden quantity past n; there is none at 32.
    fn hidden(&mut self, random: &mut Random) {
        let past = MOST_QUANTITIES - self.n;
        if past > 0 {
            self.hidden |= 1 << (self.n + random.edge(past));
        }
    }

    fn table(&mut self, random: &mut Random) {
        let length = random.edge(size(self.n));
        self.table.truncate(length);
    }

    fn workspace(&mut self, random: &mut Random) {
        self.workspace = random.edge(size(self.n));
    }

    fn values(&mut self, random: &mut Random) {
        self.values = random.edge(self.n);
    }

    /// A number of quantities that is none or too large. At some of them 2n² wraps to 0 or to something small. Half of the
    /// time there is room for 34 quantities, so that not the length gives the refusal away.
    fn n(&mut self, random: &mut Random) {
        self.n = random.pick(&[0, 33, 34, 64, 1 << 31, 1 << 32, (1 << 32) + self.n, 1 << 63, usize::MAX]);
        if random.chance(50) {
            self.table.resize(size(34), NO_RULE);
            self.workspace = size(34);
            self.values = 34;
        }
    }

    fn refusal_of_key(&self) -> Option<Reply> {
        if self.table_refused() {
            Some(SIZE)
        } else if self.workspace < size(self.n) {
            Some(too_short(size(self.n)))
        } else if u64::from(self.hidden) >= 1 << self.n || self.word_refused() {
            Some(PAST_LIMIT)
        } else {
            None
        }
    }

    fn refusal_of_assignment(&self) -> Option<Reply> {
        if self.table_refused() {
            Some(SIZE)
        } else if self.workspace < size(self.n) {
            Some(too_short(size(self.n)))
        } else if self.values < self.n {
            Some(too_short(self.n))
        } else if self.word_refused() {
            Some(PAST_LIMIT)
        } else {
            None
        }
    }

    fn table_refused(&self) -> bool {
        !(1..=MOST_QUANTITIES).contains(&self.n) || self.table.len() < size(self.n)
    }

    fn word_refused(&self) -> bool {
        let held = rules(self.n, &self.table);
        held.iter().any(|rule| rule.bound > LIMIT || rule.bound < -LIMIT)
    }

    /// What is left to be judged where the call is not refused. The hidden set may have quantities past n, which the call
    /// for an assignment is not given.
    fn sheet(&self) -> Sheet {
        let all = u32::MAX >> (MOST_QUANTITIES - self.n);
        Sheet { n: self.n, hidden: self.hidden & all, table: self.table[..size(self.n)].to_vec() }
    }
}

impl fmt::Display for Damaged {
    fn fmt(&self, f: &mut fmt::Formatter) -> fmt::Result {
        let Damaged { n, hidden, table, workspace, values } = self;
        writeln!(f, "n={n} hidden={hidden:#x} table={table:?}")?;
        writeln!(f, "words: table {}, workspace {workspace}, values {values}", table.len())
    }
}
