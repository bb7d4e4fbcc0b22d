//! What is due on a sheet within the limits, decided without the library: the reply, what the key means and which words
//! it has, which words the tightest key has, and what the integers of an assignment have to be.

use crate::brute;
use crate::calls::{same_reply, same_words};
use crate::graph::{self, Closure};
use crate::library::{Key, Reply, DONE, NO_ASSIGNMENT};
use crate::meaning::{broken, largest_bound, rules, size, terms, Rule};
use crate::naive;
use crate::plain;
use crate::sheets::Sheet;

/// Document 01, 'Finding an assignment'.
pub const FARTHEST: i64 = 1 << 62;

pub struct Due<'a> {
    sheet: &'a Sheet,
    held: Vec<Rule>,
    /// Is the sheet enumerated too?
    pub small: bool,
    /// none where no integers satisfy the sheet
    answer: Option<Answer>,
}

/// Of a sheet with an assignment: its least bounds, its key's words by the document's steps, and those of its tightest key by
/// the least bounds.
struct Answer {
    closure: Closure,
    key: Vec<i64>,
    tight: Vec<i64>,
}

/// The key's words by the document's steps, none where no integers satisfy the sheet. Shortest paths have to agree on that.
pub fn key(sheet: &Sheet) -> Result<Option<Vec<i64>>, String> {
    let Sheet { n, hidden, table } = sheet;
    let key = naive::key(*n, *hidden, table);
    if key.is_some() != Closure::of(*n, &rules(*n, table)).is_some() {
        return Err("the judges differ: shortest paths and the document's steps on an assignment".into());
    }
    Ok(key)
}

/// The words of the tightest key by its definition, none where no integers satisfy the sheet.
pub fn tight_key(sheet: &Sheet) -> Option<Vec<i64>> {
    Closure::of(sheet.n, &rules(sheet.n, &sheet.table)).map(|closure| closure.tightest(sheet.hidden))
}

impl Due<'_> {
    /// Decides the sheet in every way there is. That two ways differ is a failure of the judge.
    pub fn of(sheet: &Sheet) -> Result<Due<'_>, String> {
        let (n, hidden) = (sheet.n, sheet.hidden);
        let held = rules(n, &sheet.table);
        let small = brute::fits(n, &held);
        let answer = match (Closure::of(n, &held), naive::key(n, hidden, &sheet.table)) {
            (Some(closure), Some(key)) => {
                let tight = closure.tightest(hidden);
                Some(Answer { closure, key, tight })
            }
            (None, None) => None,
            _ => return Err("the judges differ: shortest paths and the document's steps on an assignment".into()),
        };
        let due = Due { sheet, held, small, answer };
        if small {
            due.enumeration_agrees()
                .map_err(|e| format!("the judges differ: enumeration and shortest paths on {e}"))?;
        }
        for key in Key::BOTH {
            due.plain_agrees(key).map_err(|e| format!("the judges differ: plain {}: {e}", key.name()))?;
        }
        Ok(due)
    }

    /// The reply to all three calls.
    pub fn reply(&self) -> Reply {
        match self.answer {
            Some(_) => DONE,
            None => NO_ASSIGNMENT,
        }
    }

    /// The words of the tightest key, none where no integers satisfy the sheet.
    pub fn tight(&self) -> Option<&[i64]> {
        self.answer.as_ref().map(|answer| &answer.tight[..])
    }

    /// Judges the words of a key: what they mean, and each one.
    pub fn key(&self, key: Key, found: &[i64]) -> Result<(), String> {
        let answer = self.answer.as_ref().ok_or("there is a key, but no assignment")?;
        let held = rules(self.sheet.n, found);
        if let Some(rule) = held.iter().find(|rule| rule.term.names(self.sheet.hidden)) {
            return Err(format!("rule {rule} names a hidden quantity"));
        }
        match key {
            Key::Plain => self.means(&answer.closure, &held)?,
            Key::Tight => self.is_tight(found, &held)?,
        }
        same_words(found, answer.words(key))
    }

    /// Judges the integers of an assignment.
    pub fn assignment(&self, found: &[i64]) -> Result<(), String> {
        if let Some(value) = found.iter().find(|v| !(-FARTHEST..=FARTHEST).contains(*v)) {
            return Err(format!("{value} is out of range"));
        }
        broken(&self.held, found).map_or(Ok(()), |rule| Err(format!("{found:?} breaks {rule}")))
    }

    /// Does the key allow just the visible integers that hidden ones complete?
    fn means(&self, of_sheet: &Closure, key: &[Rule]) -> Result<(), String> {
        let (n, hidden) = (self.sheet.n, self.sheet.hidden);
        // "One hiding step at most doubles the largest magnitude of a bound"; it also keeps the box of `brute` small
        let most = u128::from(largest_bound(&self.held)) << hidden.count_ones();
        if u128::from(largest_bound(key)) > most {
            return Err(format!("a bound is above {most} in magnitude"));
        }
        let of_key = Closure::of(n, key).ok_or("it allows no integers, but the sheet does")?;
        if let Some((term, of_sheet, of_key)) = graph::difference(n, hidden, of_sheet, &of_key) {
            return Err(format!("least bound of {term}: sheet {of_sheet:?}, key {of_key:?}"));
        }
        if self.small {
            if let Some(values) = brute::wrong_on(n, hidden, &self.held, key) {
                return Err(format!("wrong on the visible integers of {values:?}"));
            }
        }
        Ok(())
    }

    /// Is this what the definition of the tightest key makes of itself, whatever its bounds are?
    fn is_tight(&self, found: &[i64], held: &[Rule]) -> Result<(), String> {
        let closure = Closure::of(self.sheet.n, held).ok_or("it allows no integers, but the sheet does")?;
        same_words(found, &closure.tightest(self.sheet.hidden)).map_err(|e| format!("tightened again: {e}"))
    }

    /// Does trying all integers come to the same assignments and the same least bounds?
    fn enumeration_agrees(&self) -> Result<(), String> {
        let n = self.sheet.n;
        if brute::has_assignment(n, &self.held) != self.answer.is_some() {
            return Err("an assignment".into());
        }
        let found = brute::least::bounds(n, &self.held);
        let due =
            |closure: &Closure| terms(n).iter().map(|term| closure.least(term).map(|least| least as i64)).collect();
        match found == self.answer.as_ref().map(|answer| due(&answer.closure)) {
            true => Ok(()),
            false => Err(format!("least bounds: {found:?}")),
        }
    }

    /// Does `plain` come to the same reply and words? The library's times are measured against it.
    fn plain_agrees(&self, key: Key) -> Result<(), String> {
        let (n, hidden) = (self.sheet.n, self.sheet.hidden);
        let (mut table, mut workspace) = (self.sheet.table.clone(), vec![0; size(n)]);
        let reply = match key {
            Key::Plain => plain::key(n, hidden, &mut table, &mut workspace),
            Key::Tight => plain::tight_key(n, hidden, &mut table, &mut workspace),
        };
        same_reply(reply, self.reply())?;
        self.answer.as_ref().map_or(Ok(()), |answer| same_words(&table, answer.words(key)))
    }
}

impl Answer {
    fn words(&self, key: Key) -> &[i64] {
        match key {
            Key::Plain => &self.key,
            Key::Tight => &self.tight,
        }
    }
}
