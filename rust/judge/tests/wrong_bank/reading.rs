//! A bank reading, and the mistakes in its refusals and in what it leaves.

use super::{spoil, Trap, Wrong};
use judge::banking::cut::cut;
use judge::banking::due::Owed;
use judge::library::{not_canonical, too_short, Header, Reply, DONE, SIZE};
use judge::meaning::{script_limit, size, LIMIT, NO_RULE};
use judge::text::line::{parted, Line};
use judge::text::paper::Paper;
use judge::text::reader;
use judge::text::refusal::Refusal;
use judge::text::rule_line::RuleLine;
use judge::text::written::{self, Written};

/// Lines before the rules.
const HEADER: usize = 3;

impl Wrong {
    pub fn reading(&self, text: &[u8], table: &mut [i64], header: &mut Header) -> Reply {
        let Owed { ordinary, fine, .. } = Owed::of(text, table.len()).unwrap_or_else(|e| panic!("{e}"));
        let ordinary = match self.trap {
            Trap::ScriptLimit => self.of_script(text, table.len(), ordinary),
            _ => ordinary,
        };
        let out = self.out(ordinary.as_ref().map_or(&fine.rules, |paper| &paper.rules));
        let first = if self.trap == Trap::LastOut { out.last() } else { out.first() };
        match (first.copied(), ordinary) {
            _ if self.trap == Trap::RefusesAll => not_canonical(HEADER + 1),
            (_, Ok(paper)) if matches!(self.trap, Trap::Ordinary | Trap::AcceptsAll) => {
                self.filled(&paper, table, header)
            }
            (_, Err(_)) if self.trap == Trap::AcceptsAll => DONE,
            (Some(at), Err(refusal)) if !self.is_later(&refusal) => {
                self.unordered(at, &fine, table);
                self.told(at)
            }
            (Some(at), Ok(_)) => {
                self.unordered(at, &fine, table);
                self.told(at)
            }
            (_, Err(refusal)) => self.unread(&refusal, &fine.rules, text),
            (None, Ok(paper)) => self.filled(&paper, table, header),
        }
    }

    /// Is this refusal of ordinary reading taken before a 9 at an earlier line?
    fn is_later(&self, refusal: &Refusal) -> bool {
        match self.trap {
            Trap::Ordinary | Trap::AfterAll => true,
            Trap::After(kind) => kind == refusal.kind,
            _ => false,
        }
    }

    /// How 9 is told for this rule.
    fn told(&self, at: usize) -> Reply {
        let line = HEADER + 1 + at;
        match self.trap {
            Trap::Told(number) => Reply { number, value: line },
            Trap::LineMoved(by) => not_canonical(line.saturating_add_signed(by)),
            Trap::RuleNumber => not_canonical(at + 1),
            Trap::NoLine => not_canonical(0),
            _ => not_canonical(line),
        }
    }

    /// What 9 leaves.
    fn unordered(&self, at: usize, fine: &Paper, table: &mut [i64]) {
        let words = match self.trap {
            Trap::FilledUntil => written::table(fine.n, &fine.rules[..at]),
            Trap::Emptied => vec![NO_RULE; size(fine.n)],
            _ => vec![],
        };
        table.iter_mut().zip(words).for_each(|(word, due)| *word = due);
    }

    /// A refusal of ordinary reading, the rules before it being in order.
    fn unread(&self, refusal: &Refusal, before: &[Written], text: &[u8]) -> Reply {
        let Reply { number, value } = refusal.reply;
        let on_rule = refusal.kind.starts_with("rule ");
        match self.trap {
            Trap::Before(4) if number == 4 => not_canonical(value),
            Trap::Before(due) if on_rule && number == due && self.is_out(text, value, before) => not_canonical(value),
            Trap::Earliest if on_rule => match Owed::of(&without(text, value), size(32)).map(|owed| owed.out) {
                Ok(Some(at)) => not_canonical(HEADER + 2 + at),
                _ => refusal.reply,
            },
            Trap::ShortIsSize if number == 6 => SIZE,
            Trap::RoomForAll if number == 6 => too_short(size(32)),
            _ => refusal.reply,
        }
    }

    /// Is the rule of a refused line out of order behind these, if its bound is taken for 0?
    fn is_out(&self, text: &[u8], line: usize, before: &[Written]) -> bool {
        let bytes = text.split(|&byte| byte == b'\n').nth(line - 1).unwrap_or_default();
        let spelled = RuleLine::read_off(parted(bytes, b'=').1).to_string();
        let term = spelled.split(':').next().unwrap_or_default();
        let alone = format!("quantities=32\nhidden=\nrules=1\n{term}:0\n");
        let Ok(Paper { rules, .. }) = reader::due(alone.as_bytes(), size(32)) else { return false };
        let all = [before, &rules].concat();
        self.misspelled(&all, before.len()) || self.misplaced(&all, before.len())
    }

    /// What ordinary reading would find with the limit of a script, or the refusal.
    fn of_script(&self, text: &[u8], table: usize, ordinary: Result<Paper, Refusal>) -> Result<Paper, Refusal> {
        match (ordinary, reader::read(text, script_limit)) {
            (Err(refusal), Ok(paper)) if refusal.reply.number == 3 && size(paper.n) <= table => Ok(paper),
            (ordinary, _) => ordinary,
        }
    }

    fn filled(&self, paper: &Paper, table: &mut [i64], header: &mut Header) -> Reply {
        let mut rules = paper.rules.clone();
        // what else is done with a bound past the limit does not matter
        rules.iter_mut().for_each(|rule| rule.bound = rule.bound.clamp(-LIMIT, LIMIT));
        if self.trap == Trap::LastLost {
            rules.pop();
        }
        for (word, due) in table.iter_mut().zip(written::table(paper.n, &rules)) {
            if self.trap != Trap::LeavesPlaces || due != NO_RULE {
                *word = due;
            }
        }
        spoil(&mut table[size(paper.n)..], self.trap == Trap::WritesPastTable);
        if self.trap != Trap::LeavesQuantities {
            header.quantities = paper.n;
        }
        if self.trap != Trap::LeavesHidden {
            header.hidden = paper.hidden;
        }
        DONE
    }
}

/// The text without the rule of this line.
fn without(text: &[u8], line: usize) -> Vec<u8> {
    let lines = || text.split_inclusive(|&byte| byte == b'\n');
    let rules = lines().count() - HEADER - 1;
    let rest: Vec<u8> =
        lines().enumerate().filter(|(at, _)| at + 1 != line).flat_map(|(_, line)| line).copied().collect();
    cut(&rest, rules)
}
