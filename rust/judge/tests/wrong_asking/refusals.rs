//! The refusals of questions in their order, and the mistakes in them.

use super::{Trap, Wrong};
use judge::asking::given::Words;
use judge::graph::Closure;
use judge::library::{too_short, Reply, CANCELLING, DONE, LIST_SIZE, NO_ASSIGNMENT, PAST_LIMIT, SIZE};
use judge::meaning::{rules, size, LIMIT, MOST_QUANTITIES, MOST_QUESTIONS, NO_RULE};

impl Wrong {
    /// The reply, if it is given before a question is answered.
    pub fn early(&self, n: usize, table: &[i64], questions: &[i64], workspace: usize) -> Option<Reply> {
        if self.0 == Trap::Accepts(n) && size(n) <= table.len() && !questions.is_empty() {
            return Some(DONE);
        }
        let list = self.list(questions);
        let sized = n == 0 || n > MOST_QUANTITIES || table.len() < size(n);
        match self.0 {
            Trap::ListFirst if list.is_some() => return list,
            _ if sized => return Some(SIZE),
            _ => {}
        }
        let needed = if self.0 == Trap::WorkspaceOfMarking { 2 * size(n) } else { size(n) };
        let told = if self.0 == Trap::ListAsNeeded { questions.len() } else { needed };
        let short = (workspace < needed).then(|| too_short(told));
        let asked = self.whole(questions);
        let [past, cancelled] = self.questions(n, &asked);
        let behind = &questions[questions.len() / 3 * 3..];
        let seen = self.0 == Trap::LooksBehind && behind.iter().any(|word| word.unsigned_abs() > n as u64);
        let past = self.table(n, table).or(past).or(seen.then_some(PAST_LIMIT));
        let none = Closure::of(n, &rules(n, table)).is_none().then_some(NO_ASSIGNMENT);
        let order = match self.0 {
            Trap::LengthBeforeList => [short, list, past, cancelled],
            Trap::LimitBeforeLength => [list, past, short, cancelled],
            Trap::CancelledFirst => [list, short, cancelled, past],
            Trap::AssignmentFirst => [list, short, none, past.or(cancelled)],
            Trap::AssignmentBeforeCancelled => [list, short, past, none.or(cancelled)],
            _ => [list, short, past, cancelled],
        };
        let first = order.into_iter().flatten().next();
        match (self.0, first) {
            (Trap::NoneIsDone, Some(LIST_SIZE)) if asked.is_empty() => short.or(Some(DONE)),
            _ => first,
        }
    }

    /// The questions as the library counts them.
    pub fn whole(&self, questions: &[i64]) -> Vec<Words> {
        let mut words = questions.to_vec();
        if self.0 == Trap::PartIsQuestion {
            words.resize(words.len().next_multiple_of(3), 0);
        }
        words.chunks_exact(3).map(|words| [words[0], words[1], words[2]]).collect()
    }

    fn list(&self, questions: &[i64]) -> Option<Reply> {
        let most = match self.0 {
            Trap::Most(most) => most,
            _ => MOST_QUESTIONS,
        };
        let mut count = self.whole(questions).len();
        if self.0 == Trap::NarrowCount {
            count %= 256;
        }
        let part = self.0 == Trap::WholeOnly && !questions.len().is_multiple_of(3);
        (count == 0 || count > most || part).then_some(LIST_SIZE)
    }

    fn table(&self, n: usize, table: &[i64]) -> Option<Reply> {
        let tested = match self.0 {
            Trap::TableUnchecked => 0,
            Trap::TableBehind => table.len(),
            _ => size(n),
        };
        let out = |&word: &i64| word != NO_RULE && !(-LIMIT..=LIMIT).contains(&word);
        table[..tested].iter().any(out).then_some(PAST_LIMIT)
    }

    /// 3 and 4, of those questions that are checked.
    fn questions(&self, n: usize, asked: &[Words]) -> [Option<Reply>; 2] {
        let checked = match self.0 {
            Trap::LastUnchecked if asked.len() > 1 => &asked[..asked.len() - 1],
            Trap::FirstChecked if asked.len() > 1 => &asked[..1],
            _ => asked,
        };
        let out = checked.iter().position(|words| self.outside(n, words));
        let cancels = checked.iter().position(|words| self.cancels(words));
        match (self.0, out, cancels) {
            (Trap::FirstAtFault, Some(out), Some(cancels)) if cancels < out => [None, Some(CANCELLING)],
            _ => [out.map(|_| PAST_LIMIT), cancels.map(|_| CANCELLING)],
        }
    }

    fn outside(&self, n: usize, &[first, second, bound]: &Words) -> bool {
        let most = match self.0 {
            Trap::QuantityMoved(by) => n as i64 + by,
            _ => n as i64,
        };
        let outside = |signed: i64| match self.0 {
            Trap::MinusUnchecked => signed > most,
            Trap::NarrowQuantity => (signed as i32).unsigned_abs() as u64 > most as u64,
            _ => signed.unsigned_abs() > most as u64,
        };
        let no_first = match self.0 {
            Trap::NoFirst => false,
            Trap::NarrowQuantity => first as i32 == 0,
            _ => first == 0,
        };
        let no_second = second == 0 && self.0 == Trap::NeedsSecond;
        let limit = match self.0 {
            Trap::BoundMoved(by) => LIMIT + by,
            _ => LIMIT,
        };
        let bound = if self.0 == Trap::HalvedChecked && first == second { bound.div_euclid(2) } else { bound };
        let second = outside(second) && self.0 != Trap::SecondUnchecked;
        no_first || no_second || outside(first) || second || !(-limit..=limit).contains(&bound)
    }

    fn cancels(&self, &[first, second, _]: &Words) -> bool {
        match self.0 {
            Trap::PassesCancelled => false,
            Trap::DoubledCancels => first != 0 && first.unsigned_abs() == second.unsigned_abs(),
            _ => first != 0 && first.checked_neg() == Some(second),
        }
    }
}
