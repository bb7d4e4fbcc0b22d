//! A library over shortest paths that falls into one of the traps of questions to one sheet.

mod refusals;
mod trap;

use judge::asking::given::{place, rule, Words};
use judge::graph::Closure;
use judge::library::{Asker, Reply, DONE, NO_ASSIGNMENT};
use judge::meaning::{rules, size, Rule, Term, LIMIT, NO_RULE};
pub use trap::Trap;

pub struct Wrong(pub Trap);

impl Asker for Wrong {
    fn ask(&self, n: usize, table: &[i64], questions: &[i64], workspace: &mut [i64], answers: &mut u64) -> Reply {
        let reply = self.early(n, table, questions, workspace.len()).unwrap_or_else(|| {
            let sheet: Vec<i64> = table[..size(n)].iter().map(within).collect();
            self.answered(n, &sheet, &self.whole(questions), workspace, answers)
        });
        if self.0 == Trap::AnswersLost(reply.number) {
            *answers = 0;
        }
        spoil(workspace, self.0 == Trap::WorkspaceLost(reply.number));
        match self.0 == Trap::ValueBeside(reply.number) {
            true => Reply { value: 1, ..reply },
            false => reply,
        }
    }
}

impl Wrong {
    fn answered(&self, n: usize, sheet: &[i64], asked: &[Words], workspace: &mut [i64], answers: &mut u64) -> Reply {
        let Some(closure) = Closure::of(n, &rules(n, sheet)) else {
            if self.0 == Trap::NeverFive {
                *answers = u64::MAX >> (64 - asked.len());
                return DONE;
            }
            return NO_ASSIGNMENT;
        };
        let tight = closure.tightest(0);
        match self.0 {
            Trap::WorkspaceLeft => {}
            Trap::WorkspaceIsSheet => workspace[..size(n)].copy_from_slice(sheet),
            _ => workspace[..size(n)].copy_from_slice(&tight),
        }
        spoil(&mut workspace[size(n)..], self.0 == Trap::WritesPastWorkspace);
        let taken = match self.0 {
            Trap::OwnWord => sheet.to_vec(),
            Trap::Hides(set) => closure.tightest(set & (u32::MAX >> (32 - n))),
            Trap::WordWithinLimit => tight.iter().map(within).collect(),
            _ => tight,
        };
        let yes: Vec<bool> = asked.iter().map(|&words| self.yes(&taken, rule(named(n, words)))).collect();
        *answers = self.put(&yes, *answers);
        DONE
    }

    /// The answer by the words of a table.
    fn yes(&self, taken: &[i64], mut asked: Rule) -> bool {
        let Term { first, second } = asked.term;
        let exchanged = second.is_some_and(|second| second.quantity < first.quantity);
        let doubled = second == Some(first);
        match (self.0, second) {
            (Trap::SecondIgnored, _) => asked.term.second = None,
            (Trap::FirstIgnored, Some(second)) => asked.term = Term { first: second, second: None },
            (Trap::SignsStay, Some(mut second)) if exchanged => {
                let mut first = first;
                std::mem::swap(&mut first.sign, &mut second.sign);
                asked.term = Term { first, second: Some(second) };
            }
            _ => {}
        }
        // a question that cancels is let through here and there, and has no place
        let cancels = second.is_some_and(|second| second.quantity == first.quantity && !doubled);
        let word = if cancels { 0 } else { taken[place(&asked.term).0] };
        let halved = match self.0 {
            _ if !doubled && self.0 != Trap::HalvesAll => asked.bound,
            Trap::HalvesUp => -(-asked.bound).div_euclid(2),
            Trap::HalvesTowardZero => asked.bound / 2,
            Trap::NotHalved => asked.bound,
            _ => asked.bound.div_euclid(2),
        };
        match self.0 {
            Trap::Always(answer) => answer,
            Trap::Below => word < halved,
            Trap::OneBelow => word != NO_RULE && word - 1 <= halved,
            Trap::UnboundedIsYes => word == NO_RULE || word <= halved,
            Trap::DoubledIsNo if doubled => false,
            Trap::HigherFirstIsNo if exchanged => false,
            _ => word <= halved,
        }
    }

    /// The bits of the answers.
    fn put(&self, yes: &[bool], before: u64) -> u64 {
        let count = yes.len();
        let bit = |at: usize| match self.0 {
            Trap::FromLast => count - 1 - at,
            Trap::FromTop => 63 - at,
            Trap::FromOne => at + 1,
            _ => at,
        };
        let set = |at: usize| if self.0 == Trap::FirstForAll { yes[0] } else { yes[at] };
        let bits = (0..count).filter(|&at| set(at) && bit(at) < 64).fold(0_u64, |bits, at| bits | 1 << bit(at));
        match self.0 {
            Trap::LastBitLost => bits & (u64::MAX >> 1),
            Trap::NarrowAnswers => bits & u64::from(u32::MAX),
            Trap::BitsAbove if count < 64 => bits | u64::MAX << count,
            Trap::OldBits => bits | before,
            _ => bits,
        }
    }
}

/// A word within the limits, for what a library does with others that it lets through does not matter.
fn within(word: &i64) -> i64 {
    if *word == NO_RULE {
        NO_RULE
    } else {
        (*word).clamp(-LIMIT, LIMIT)
    }
}

/// A question with quantities of the sheet and a bound that can be halved, in the place of one that is let through.
fn named(n: usize, [first, second, bound]: Words) -> Words {
    let quantity = |signed: i64| signed.clamp(-(n as i64), n as i64);
    let first = if first == 0 { 1 } else { quantity(first) };
    [first, quantity(second), bound.clamp(-LIMIT - 1, LIMIT + 1)]
}

/// Changes the first of these words, if there is one and it is due.
fn spoil(words: &mut [i64], due: bool) {
    if due {
        words.iter_mut().take(1).for_each(|word| *word = !*word);
    }
}
