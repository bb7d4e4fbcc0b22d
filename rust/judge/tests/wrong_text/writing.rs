//! A writing, and the mistakes in its text, its refusals and what it leaves.

use super::taken::replaced;
use super::{Trap, Wrong};
use judge::library::{too_short, written, Reply, PAST_LIMIT, SIZE};
use judge::meaning::{is_in, rules, size, Rule, LIMIT, MOST_BYTES, NO_RULE};
use judge::sheets::Sheet;
use judge::text::refusal::Refusal;
use judge::text::writer::Given;

impl Wrong {
    pub fn writing(&self, n: usize, hidden: u32, table: &[i64], out: &mut [u8]) -> Reply {
        let given = self.given(n, hidden, table, out.len());
        let refusal = match given.due() {
            Ok(_) => None,
            Err(refusal) => Some(self.unwritten(&refusal, &given, out)),
        };
        let Some(sheet) = given.sheet() else {
            return refusal.unwrap_or(SIZE);
        };
        let text = self.text(&sheet);
        if let Some(refusal) = refusal.or_else(|| self.refuses(&sheet, &text, out.len())) {
            return refusal;
        }
        let length = text.len().min(out.len());
        out[..length].copy_from_slice(&text[..length]);
        if self.trap == Trap::WritesPastText {
            out[length..].iter_mut().take(1).for_each(|byte| *byte = !*byte);
        }
        written(if self.trap == Trap::NoLength { 0 } else { text.len() })
    }

    /// What the call is taken for.
    fn given(&self, n: usize, hidden: u32, table: &[i64], out: usize) -> Given {
        let mut given = Given { n, hidden, table: table.to_vec(), out };
        match self.trap {
            // what else is done with such an n does not matter
            Trap::Accepts(accepted) if n == accepted && n.wrapping_mul(n).wrapping_mul(2) <= table.len() => {
                (given.n, given.hidden) = (1, 0);
                given.table.extend([NO_RULE; 2]);
            }
            Trap::NarrowsN => given.n = n as u32 as usize,
            Trap::PassesHidden if (1..32).contains(&n) => given.hidden &= (1 << n) - 1,
            Trap::PassesShortTable if n <= 32 => given.table.resize(table.len().max(size(n)), NO_RULE),
            _ => {}
        }
        given
    }

    fn unwritten(&self, refusal: &Refusal, given: &Given, out: &mut [u8]) -> Reply {
        match self.trap {
            Trap::HiddenBeforeSize if refusal.hides(3) => PAST_LIMIT,
            Trap::ShortBeforeHidden if refusal.reply == PAST_LIMIT && refusal.hides(6) => {
                too_short(self.text(&given.sheet().expect("1 is not due")).len())
            }
            Trap::LentBytes if refusal.reply.number == 6 => too_short(out.len()),
            Trap::WritesPart if refusal.reply.number == 6 => {
                let text = self.text(&given.sheet().expect("1 is not due"));
                out.copy_from_slice(&text[..out.len()]);
                refusal.reply
            }
            _ => refusal.reply,
        }
    }

    /// A refusal that is not due.
    fn refuses(&self, sheet: &Sheet, text: &[u8], out: usize) -> Option<Reply> {
        match self.trap {
            Trap::RefusesPastLimit if rules(sheet.n, &sheet.table).iter().any(past_limit) => Some(PAST_LIMIT),
            Trap::RefusesLongText if text.len() > MOST_BYTES => Some(SIZE),
            Trap::ShiftsByBits if sheet.hidden >> (sheet.n % 32) != 0 => Some(PAST_LIMIT),
            Trap::NeedsOneMore if out == text.len() => Some(too_short(text.len() + 1)),
            _ => None,
        }
    }

    fn text(&self, sheet: &Sheet) -> Vec<u8> {
        let n = sheet.n;
        let mut table = sheet.table.clone();
        match self.trap {
            Trap::SkipsFirstPlace => table[0] = NO_RULE,
            Trap::SkipsLastPlace => table[size(n) - 1] = NO_RULE,
            _ => {}
        }
        let mut rules = rules(n, &table);
        let mut hidden: Vec<String> = (1..=n).filter(|&q| is_in(sheet.hidden, q)).map(|q| q.to_string()).collect();
        let mut count = rules.len();
        match self.trap {
            Trap::RulesBackward => rules.reverse(),
            Trap::ListBackward => hidden.reverse(),
            Trap::CountsPlaces => count = size(n),
            Trap::CountsOneMore => count += 1,
            Trap::SkipsPastLimit => rules.retain(|rule| !past_limit(rule)),
            _ => {}
        }
        let mut text = format!("quantities={n}\nhidden={}\nrules={count}\n", hidden.join(","));
        rules.iter().for_each(|rule| text += &format!("rule={}\n", self.spelled(rule)));
        match self.trap {
            Trap::Prints(to, from) => replaced(text.as_bytes(), from.as_bytes(), to.as_bytes()),
            _ => text.into_bytes(),
        }
    }

    fn spelled(&self, rule: &Rule) -> String {
        match (self.trap, rule.term.second) {
            (Trap::HigherFirst, Some(second)) => format!("{second}{}:{}", rule.term.first, rule.bound),
            _ => rule.to_string(),
        }
    }
}

fn past_limit(rule: &Rule) -> bool {
    !(-LIMIT..=LIMIT).contains(&rule.bound)
}
