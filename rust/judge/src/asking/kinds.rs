//! The kinds of calls, of which a run has to meet all: what stood in the way of others, and at what answers turned.

use super::due::Answers;
use super::given::{cancels, outside, past, place, rule, Given, Words};
use crate::meaning::{Rule, LIMIT, MOST_QUANTITIES, MOST_QUESTIONS, NO_RULE};

/// What a run is to meet. A refusal alone, as `4`, has no other reason beside it; with `4 before 5` there is one that must not
/// be seen.
pub const KINDS: [&str; 75] = [
    "1 n",
    "1 table",
    "1 table before 8 none",
    "1 table before 8 more",
    "1 table before 6",
    "1 table before 3 table",
    "1 table before 3 question",
    "1 table before 4",
    "8 none",
    "8 none before 6",
    "8 none before 3 table",
    "8 none before 5",
    "8 more",
    "8 more before 6",
    "8 more before 3 table",
    "8 more before 3 question",
    "8 more before 4",
    "8 more before 5",
    "8 with words of no question",
    "6",
    "6 before 3 table",
    "6 before 3 question",
    "6 before 4",
    "6 before 5",
    "3 table",
    "3 table before 4",
    "3 table before 5",
    "3 question",
    "3 question before 4",
    "3 question before 5",
    "3 for no first quantity",
    "3 for a first quantity past n",
    "3 for a second quantity past n",
    "3 for a bound one past the limit",
    "3 for a bound that would be within if halved",
    "3 in the last question alone",
    "3 behind a 4",
    "4",
    "4 before 5",
    "4 in the last question alone",
    "5",
    "5 enumerated",
    "no, above every bound",
    "no, all of them",
    "no, doubled",
    "no, doubled, and one below 0 rounds it",
    "no, doubled, one below the least bound",
    "no, higher quantity first",
    "no, least bound past the limit",
    "no, lower quantity first",
    "no, one below the least bound",
    "no, one quantity",
    "no, question 64",
    "no, without a bound",
    "of 1 question",
    "of 64 questions",
    "of 64 questions and words behind them",
    "of both answers",
    "of enumerated answers",
    "of one quantity in all",
    "of the largest n",
    "yes, all of them",
    "yes, at the least bound",
    "yes, below every bound",
    "yes, by rules together",
    "yes, doubled",
    "yes, doubled, at an odd bound",
    "yes, doubled, at the least bound",
    "yes, doubled, odd and below 0",
    "yes, higher quantity first",
    "yes, least bound past the limit",
    "yes, lower quantity first",
    "yes, one quantity",
    "yes, question 64",
    "yes, with bits of no question above",
];

/// The first reason for a refusal alone, or before each of the others, and what stands behind some of them.
pub fn of_refused(given: &Given, enumerated: bool) -> Vec<String> {
    let names: Vec<&str> = given.reasons().iter().map(|reason| reason.name).collect();
    let mut kinds: Vec<String> = match &names[..] {
        [alone] => vec![alone.to_string()],
        [first, others @ ..] => others.iter().map(|other| format!("{first} before {other}")).collect(),
        [] => vec![],
    };
    match names.first() {
        Some(&"8 none") if !given.questions.is_empty() => kinds.push("8 with words of no question".into()),
        Some(&"3 question") => kinds.extend(of_outside(given.n, &given.asked()).iter().map(|kind| kind.to_string())),
        Some(&"4") => {
            let asked = given.asked();
            let last = asked.len() > 1 && asked.iter().position(cancels) == Some(asked.len() - 1);
            kinds.extend(last.then(|| "4 in the last question alone".to_string()));
        }
        Some(&"5") if enumerated => kinds.push("5 enumerated".into()),
        _ => {}
    }
    kinds
}

/// Why questions of a list are outside the limits.
fn of_outside(n: usize, asked: &[Words]) -> Vec<&'static str> {
    let out: Vec<&Words> = asked.iter().filter(|words| outside(n, words)).collect();
    let first = asked.iter().position(|words| outside(n, words));
    let cancelled = asked.iter().position(|words| cancels(words) && !outside(n, words));
    let alone = |such: &dyn Fn(&Words) -> bool| out.iter().all(|words| such(words));
    let named = |&[first, second, _]: &Words| !outside(n, &[first, second, 0]);
    let kinds = [
        (alone(&|words| words[0] == 0), "3 for no first quantity"),
        (alone(&|&[first, ..]| first != 0 && outside(n, &[first, 0, 0])), "3 for a first quantity past n"),
        (
            alone(&|&[first, second, bound]| !outside(n, &[first, 0, bound]) && outside(n, &[1, second, 0])),
            "3 for a second quantity past n",
        ),
        (
            alone(&|words| named(words) && words[2].unsigned_abs() == LIMIT as u64 + 1),
            "3 for a bound one past the limit",
        ),
        (
            alone(&|words| named(words) && words[0] == words[1] && !past(words[2].div_euclid(2))),
            "3 for a bound that would be within if halved",
        ),
        (asked.len() > 1 && first == Some(asked.len() - 1), "3 in the last question alone"),
        (cancelled.is_some_and(|at| Some(at) < first), "3 behind a 4"),
    ];
    kinds.into_iter().filter(|(met, _)| *met).map(|(_, kind)| kind).collect()
}

/// Of a list that is answered, and of each of its questions.
pub fn of_answers(given: &Given, answers: &Answers) -> Vec<String> {
    let Answers { yes, tight, enumerated } = answers;
    let (count, behind) = (yes.len(), given.questions.len() % 3);
    let all = |answer: bool| count > 1 && yes.iter().all(|&yes| yes == answer);
    let kinds = [
        (count == 1, "of 1 question"),
        (count == MOST_QUESTIONS, "of 64 questions"),
        (count == MOST_QUESTIONS && behind > 0, "of 64 questions and words behind them"),
        (yes.contains(&true) && yes.contains(&false), "of both answers"),
        (*enumerated, "of enumerated answers"),
        (given.n == 1, "of one quantity in all"),
        (given.n == MOST_QUANTITIES, "of the largest n"),
        (all(true), "yes, all of them"),
        (all(false), "no, all of them"),
        (count < MOST_QUESTIONS && yes[count - 1], "yes, with bits of no question above"),
    ];
    let mut met: Vec<String> = kinds.into_iter().filter(|(met, _)| *met).map(|(_, kind)| kind.to_string()).collect();
    for (at, (&words, &yes)) in given.asked().iter().zip(yes).enumerate() {
        let word = if yes { "yes" } else { "no" };
        let turns = of_question(&rule(words), &given.table, tight, yes, at);
        met.extend(turns.iter().map(|turn| format!("{word}, {turn}")));
    }
    met
}

/// The form of a question, and how its bound lies to the least one.
fn of_question(rule: &Rule, table: &[i64], tight: &[i64], yes: bool, at: usize) -> Vec<&'static str> {
    let (place, times) = place(&rule.term);
    let (least, bound, doubled) = (tight[place], rule.bound, times == 2);
    let bounded = least != NO_RULE;
    let from_least = if bounded { i128::from(bound) - i128::from(times) * i128::from(least) } else { i128::MIN };
    let form = match rule.term.second {
        None => "one quantity",
        Some(_) if doubled => "doubled",
        Some(second) if second.quantity < rule.term.first.quantity => "higher quantity first",
        Some(_) => "lower quantity first",
    };
    let odd = bound.rem_euclid(2) == 1;
    let kinds = [
        (true, form),
        (at + 1 == MOST_QUESTIONS, "question 64"),
        (!doubled && from_least == 0, "at the least bound"),
        (doubled && from_least == 0, "doubled, at the least bound"),
        (doubled && from_least == 1, "doubled, at an odd bound"),
        (doubled && yes && odd && bound < 0, "doubled, odd and below 0"),
        (!doubled && from_least == -1, "one below the least bound"),
        (doubled && from_least == -1, "doubled, one below the least bound"),
        (doubled && from_least == -1 && bound < 0, "doubled, and one below 0 rounds it"),
        (!bounded, "without a bound"),
        (!bounded && bound == LIMIT, "above every bound"),
        (yes && bound == -LIMIT, "below every bound"),
        (bounded && least.unsigned_abs() > LIMIT as u64, "least bound past the limit"),
        (yes && table[place] > bound.div_euclid(times), "by rules together"),
    ];
    kinds.into_iter().filter(|(met, _)| *met).map(|(_, kind)| kind).collect()
}
