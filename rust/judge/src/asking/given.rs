//! What a call is given, and the first refusal that is due.

use crate::graph::Closure;
use crate::lent::further;
use crate::library::{too_short, Reply, CANCELLING, LIST_SIZE, NO_ASSIGNMENT, PAST_LIMIT, SIZE};
use crate::meaning::{rules, size, Literal, Rule, Term, LIMIT, MOST_QUANTITIES, MOST_QUESTIONS};
use crate::naive;
use crate::random::Random;
use crate::sheets::Sheet;
use std::fmt;

/// A question as three words: two signed quantities, the second 0 where there is none, and the bound.
pub type Words = [i64; 3];

/// The table and the list with all their words, of the workspace only how many are lent.
#[derive(Clone)]
pub struct Given {
    pub n: usize,
    pub table: Vec<i64>,
    pub questions: Vec<i64>,
    pub workspace: usize,
}

/// A reply for which there is reason, and the reason in words.
pub struct Reason {
    pub reply: Reply,
    pub name: &'static str,
}

impl Given {
    /// A call with nothing wrong but what the sheet or the questions themselves have. At times more is lent than needed, and
    /// what stands behind the table or the last whole question is no part of it.
    pub fn sound(sheet: &Sheet, questions: &[Words], random: &mut Random) -> Given {
        let behind = further(random);
        let table = [&sheet.table[..], &random.words(behind)].concat();
        let left = random.pick(&[0, 0, 1, 2]);
        let questions = [questions.concat(), random.words(left)].concat();
        Given { n: sheet.n, table, questions, workspace: size(sheet.n) + further(random) }
    }

    /// The whole questions of the list.
    pub fn asked(&self) -> Vec<Words> {
        (0..self.questions.len() / 3).map(|at| [0, 1, 2].map(|word| self.questions[3 * at + word])).collect()
    }

    /// All that speaks against the call, in the order in which it is to be seen: the first decides. Of an n that is refused
    /// nothing more can be said, and of a table that is too short not whether it has an assignment.
    pub fn reasons(&self) -> Vec<Reason> {
        if !(1..=MOST_QUANTITIES).contains(&self.n) {
            return vec![Reason { reply: SIZE, name: "1 n" }];
        }
        let (n, asked) = (self.n, self.asked());
        let held = rules(n, &self.table);
        let short = self.table.len() < size(n);
        let all = [
            (short, SIZE, "1 table"),
            (asked.is_empty(), LIST_SIZE, "8 none"),
            (asked.len() > MOST_QUESTIONS, LIST_SIZE, "8 more"),
            (self.workspace < size(n), too_short(size(n)), "6"),
            (held.iter().any(|rule| past(rule.bound)), PAST_LIMIT, "3 table"),
            (asked.iter().any(|words| outside(n, words)), PAST_LIMIT, "3 question"),
            (asked.iter().any(cancels), CANCELLING, "4"),
            (!short && Closure::of(n, &held).is_none(), NO_ASSIGNMENT, "5"),
        ];
        all.into_iter().filter(|(met, ..)| *met).map(|(_, reply, name)| Reason { reply, name }).collect()
    }
}

/// Is a question outside the limits of a rule that a sheet of n quantities may write? There, too, quantities begin at 1.
pub fn outside(n: usize, &[first, second, bound]: &Words) -> bool {
    let named = |signed: i64| (1..=n).any(|q| signed == q as i64 || signed == -(q as i64));
    !named(first) || second != 0 && !named(second) || past(bound)
}

pub fn past(bound: i64) -> bool {
    !(-LIMIT..=LIMIT).contains(&bound)
}

/// Is it +q-q or -q+q? One outside the limits may be so too.
pub fn cancels(&[first, second, _]: &Words) -> bool {
    first != 0 && first.checked_neg() == Some(second)
}

/// The rule that a question within the limits asks about, as it is written.
pub fn rule([first, second, bound]: Words) -> Rule {
    let literal = |signed: i64| Literal { sign: signed.signum(), quantity: signed.unsigned_abs() as usize };
    let second = (second != 0).then(|| literal(second));
    Rule { term: Term { first: literal(first), second }, bound }
}

/// Where a table has a question's term, and how often that counts in it: a doubled term is twice the table's.
pub fn place(term: &Term) -> (usize, i64) {
    match term.second {
        None => (naive::place(term.first), 1),
        Some(second) if second == term.first => (naive::place(second), 2),
        Some(second) => (naive::place_of_two(term.first, second), 1),
    }
}

impl fmt::Display for Given {
    fn fmt(&self, f: &mut fmt::Formatter) -> fmt::Result {
        let Given { n, table, questions, workspace } = self;
        writeln!(f, "n={n} table={table:?}\nquestions={questions:?}")?;
        writeln!(f, "words: table {}, questions {}, workspace {workspace}", table.len(), questions.len())
    }
}
