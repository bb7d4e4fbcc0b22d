//! Questions to a table that holds its own words, and to a text, against the call on lent words.

use super::table::{damaged, same};
use crate::asking::lists;
use crate::library::{Asker, Header, Reply, Texts, DONE};
use crate::linked::Linked;
use crate::meaning::{LIMIT, MOST_QUESTIONS};
use crate::random::Random;
use crate::sheets::Sheet;
use acornsled::limits::TABLE_WORDS;
use acornsled::{Rule, Table};

/// Holds what the crate answers to a list of questions against the call: to a text, to its table if it is read, and to the table
/// damaged. Gives the numbers that were replied.
pub fn text(text: &[u8], random: &mut Random) -> Result<Vec<u32>, String> {
    let read = Linked.read(text, &mut vec![0; TABLE_WORDS], &mut Header::default());
    let Ok(table) = Table::read(text) else {
        same(&acornsled::ask(text, &list(None, random)), read, &vec![]).map_err(|e| format!("asking a text: {e}"))?;
        return Ok(vec![]);
    };
    let questions = list(Some(&table), random);
    let (reply, due) = called(&table, &questions);
    same(&acornsled::ask(text, &questions), reply, &due).map_err(|e| format!("asking a text: {e}"))?;
    let mut numbers = vec![];
    for table in [table.clone(), damaged(table, random)] {
        let (reply, due) = called(&table, &questions);
        same(&table.ask(&questions), reply, &due).map_err(|e| format!("asking {questions:?}: {e}"))?;
        numbers.push(reply.number);
    }
    Ok(numbers)
}

/// The reply to the call and its answers.
fn called(table: &Table, questions: &[Rule]) -> (Reply, Vec<bool>) {
    let words: Vec<i64> = questions.iter().flat_map(spelled).collect();
    let mut answers = 0;
    let reply = Linked.ask(table.quantities, &table.words, &words, &mut vec![0; TABLE_WORDS], &mut answers);
    let count = if reply == DONE { questions.len() } else { 0 };
    (reply, (0..count).map(|at| answers >> at & 1 == 1).collect())
}

/// The three words of a question, not by the crate's own function.
fn spelled(question: &Rule) -> [i64; 3] {
    match *question {
        Rule::One { term, bound } => [term, 0, bound],
        Rule::Two { first, second, bound } => [first, second, bound],
    }
}

/// Questions to a table, in half of the cases with one that is refused, or with none or too many.
fn list(table: Option<&Table>, random: &mut Random) -> Vec<Rule> {
    let drawn = table.map(|table| {
        let sheet = Sheet { n: table.quantities, hidden: 0, table: table.words.clone() };
        lists::drawn(&sheet, random)
    });
    let mut questions: Vec<Rule> = drawn.unwrap_or_default().into_iter().map(question).collect();
    let Some(last) = questions.len().checked_sub(1) else { return questions };
    let at = random.edge(last + 1);
    match random.below(10) {
        0 => questions.clear(),
        1 => questions = questions.iter().copied().cycle().take(MOST_QUESTIONS + 1).collect(),
        2 => questions[at] = question([random.pick(&[0, 33, -33, i64::MIN]), 0, 0]),
        3 => questions[at] = question([1, 0, random.pick(&[LIMIT + 1, -LIMIT - 1])]),
        4 => questions[at] = question([-1, 1, 0]),
        _ => {}
    }
    questions
}

fn question([first, second, bound]: [i64; 3]) -> Rule {
    match second {
        0 => Rule::One { term: first, bound },
        _ => Rule::Two { first, second, bound },
    }
}
