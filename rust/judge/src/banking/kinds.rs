//! The kinds of texts, of which a run has to meet all: by what a rule was one that a bank sheet may not have, and what a
//! refusal came before.

use super::due::Owed;
use super::list;
use crate::asking::given;
use crate::meaning::{script_limit, size, LIMIT, MOST_QUANTITIES, MOST_RULES};
use crate::text::line::{parted, Line};
use crate::text::paper::Paper;
use crate::text::refusal::Refusal;
use crate::text::rule_line::RuleLine;

/// What a run is to meet. `9 doubled` is a term that is doubled and nothing else, `9 before 2` one with a malformed line
/// behind it, and `2, doubled` a malformed line with a doubled term.
pub const KINDS: [&str; 64] = [
    "1",
    "quantities 2",
    "quantities 3",
    "hidden 2",
    "hidden 3",
    "rules 2",
    "rules 3",
    "rule 2",
    "rule 3",
    "rule 4",
    "2 missing",
    "2 unended",
    "2 behind",
    "6",
    "2, doubled",
    "2, higher first",
    "2, not after",
    "3, doubled",
    "3, higher first",
    "3, not after",
    "3, a bound that a script may have",
    "4 at the first rule",
    "4 behind a rule",
    "2 before a later 9",
    "3 before a later 9",
    "4 before a later 9",
    "9 doubled",
    "9 doubled, not after",
    "9 higher first",
    "9 higher first, not after",
    "9 the place before again",
    "9 the place before again, another bound",
    "9 the first place of all again",
    "9 the last place of all again",
    "9 earlier in the block",
    "9 of an earlier block",
    "9 a place of an earlier rule",
    "9 an earlier place without a rule",
    "9 after the first rule, not after the one before",
    "9 at the first rule",
    "9 at the second rule",
    "9 at the last rule",
    "9 with rules behind",
    "9 of one quantity",
    "9 of 32 quantities",
    "9 alone",
    "9 before 2",
    "9 before 3",
    "9 before 4",
    "9 before 2 missing",
    "9 before 2 unended",
    "9 before 2 behind",
    "9 before 6",
    "read, no rule",
    "read, one rule",
    "read, rules at neighbouring places",
    "read, a rule at every place",
    "read, 2048 rules",
    "read, bounds at both limits",
    "read, one quantity",
    "read, 32 quantities",
    "read, nothing hidden",
    "read, all hidden",
    "read, blocks without a rule between others",
];

/// The kinds that a text is of.
pub fn of(text: &[u8], owed: &Owed) -> Vec<String> {
    match (owed.out, &owed.ordinary) {
        (Some(at), Err(refusal)) => {
            named(of_out(&owed.fine, at)).into_iter().chain([format!("9 before {}", ended(refusal))]).collect()
        }
        (Some(at), Ok(paper)) => {
            let last = at + 1 == paper.rules.len();
            let alone = [(true, "9 alone"), (last, "9 at the last rule"), (!last, "9 with rules behind")];
            named(of_out(paper, at).into_iter().chain(alone).collect())
        }
        (None, Err(refusal)) => of_refused(text, owed, refusal),
        (None, Ok(paper)) => named(of_read(paper)),
    }
}

/// A refusal of ordinary reading as it is told here, without what else speaks against a line.
fn ended(Refusal { reply, kind }: &Refusal) -> String {
    match kind.split_once(' ') {
        Some(("rule", _)) => reply.number.to_string(),
        Some((line, _)) if line.starts_with(char::is_alphabetic) => format!("{line} {}", reply.number),
        _ => kind.clone(),
    }
}

/// By what the rule at `at` is out of order.
fn of_out(Paper { n, rules, .. }: &Paper, at: usize) -> Vec<(bool, &'static str)> {
    let term = rules[at].rule().term;
    let (place, times) = given::place(&term);
    let listed = |at: usize| given::place(&rules[at].rule().term).0;
    let (doubled, higher) = (times == 2, times == 1 && list::place(&term.to_string()).is_none());
    let form = doubled || higher;
    let before = at.checked_sub(1).map(listed);
    let (again, earlier) = (before == Some(place), before.is_some_and(|before| place < before));
    let (plain_again, plain_earlier) = (!form && again, !form && earlier);
    let held = (0..at).any(|earlier| listed(earlier) == place);
    vec![
        (doubled && !again && !earlier, "9 doubled"),
        (doubled && (again || earlier), "9 doubled, not after"),
        (higher && !again && !earlier, "9 higher first"),
        (higher && (again || earlier), "9 higher first, not after"),
        (plain_again, "9 the place before again"),
        (plain_again && rules[at].bound != rules[at - 1].bound, "9 the place before again, another bound"),
        (plain_again && place == 0, "9 the first place of all again"),
        (plain_again && place + 1 == size(*n), "9 the last place of all again"),
        (plain_earlier && before.map(block) == Some(block(place)), "9 earlier in the block"),
        (plain_earlier && before.map(block) > Some(block(place)), "9 of an earlier block"),
        (plain_earlier && held, "9 a place of an earlier rule"),
        (plain_earlier && !held, "9 an earlier place without a rule"),
        (plain_earlier && place > listed(0), "9 after the first rule, not after the one before"),
        (at == 0, "9 at the first rule"),
        (at == 1, "9 at the second rule"),
        (*n == 1, "9 of one quantity"),
        (*n == MOST_QUANTITIES, "9 of 32 quantities"),
    ]
}

/// A refusal as by ordinary reading: what else a bank sheet has against the line, and whether it has something against a
/// later one.
fn of_refused(text: &[u8], owed: &Owed, refusal: &Refusal) -> Vec<String> {
    let (number, line) = (refusal.reply.number, refusal.reply.value);
    let on_rule = refusal.kind.starts_with("rule ");
    let mut kinds = vec![if on_rule { format!("rule {number}") } else { ended(refusal) }];
    if !on_rule {
        return kinds;
    }
    let Paper { hidden, ref rules, .. } = owed.fine;
    let before = rules.last().map(|rule| rule.rule().term.to_string());
    let lines: Vec<(String, String)> = text.split(|&byte| byte == b'\n').skip(line - 1).map(taken).collect();
    let (term, bound) = &lines[0];
    kinds.extend(against(term, before.as_deref()).map(|what| format!("{number}, {what}")));
    let later = lines.windows(2).any(|pair| against(&pair[1].0, Some(&pair[0].0)).next().is_some());
    let magnitude = bound.trim_start_matches('-').parse().unwrap_or(u64::MAX);
    let script = LIMIT as u64 + 1..=script_limit(hidden) as u64;
    let met = [
        (later, format!("{number} before a later 9")),
        (number == 4, format!("4 {}", if rules.is_empty() { "at the first rule" } else { "behind a rule" })),
        (number == 3 && script.contains(&magnitude), "3, a bound that a script may have".into()),
    ];
    kinds.extend(met.into_iter().filter(|(met, _)| *met).map(|(_, kind)| kind));
    kinds
}

/// The term and the bound of a line that is taken for a rule, be it one or not, as it would be spelled.
fn taken(line: &[u8]) -> (String, String) {
    let spelled = RuleLine::read_off(parted(line, b'=').1).to_string();
    let (term, bound) = spelled["rule=".len()..].split_once(':').expect("a rule is spelled with a colon");
    (term.into(), bound.into())
}

/// What a bank sheet has against a term behind another, whatever else its line has.
fn against(term: &str, before: Option<&str>) -> impl Iterator<Item = &'static str> {
    let (one, other) = list::parted(term);
    let number = |signed: &str| signed[1..].parse::<u128>().unwrap_or(u128::MAX);
    let places = list::place(term).zip(before.and_then(list::place));
    let all = [
        (one == other, "doubled"),
        (!other.is_empty() && number(one) > number(other), "higher first"),
        (places.is_some_and(|(place, before)| place <= before), "not after"),
    ];
    all.into_iter().filter(|(met, _)| *met).map(|(_, what)| what)
}

/// Of a bank sheet that is read.
fn of_read(paper: &Paper) -> Vec<(bool, &'static str)> {
    let Paper { n, hidden, ref rules } = *paper;
    let places: Vec<usize> = rules.iter().map(|rule| given::place(&rule.rule().term).0).collect();
    let bounded = |bound: i64| rules.iter().any(|rule| rule.bound == bound);
    let steps = |such: fn(usize, usize) -> bool| places.windows(2).any(|pair| such(pair[0], pair[1]));
    vec![
        (rules.is_empty(), "read, no rule"),
        (rules.len() == 1, "read, one rule"),
        (steps(|one, next| one + 1 == next), "read, rules at neighbouring places"),
        (rules.len() == size(n), "read, a rule at every place"),
        (rules.len() == MOST_RULES, "read, 2048 rules"),
        (bounded(LIMIT) && bounded(-LIMIT), "read, bounds at both limits"),
        (n == 1, "read, one quantity"),
        (n == MOST_QUANTITIES, "read, 32 quantities"),
        (hidden == 0, "read, nothing hidden"),
        (hidden == u32::MAX >> (MOST_QUANTITIES - n), "read, all hidden"),
        (steps(|one, next| block(one) + 1 < block(next)), "read, blocks without a rule between others"),
    ]
}

/// The quantity in whose block a place is.
fn block(place: usize) -> usize {
    (0..MOST_QUANTITIES).take_while(|&q| size(q) <= place).count()
}

fn named(kinds: Vec<(bool, &str)>) -> Vec<String> {
    kinds.into_iter().filter(|(met, _)| *met).map(|(_, kind)| kind.into()).collect()
}
