//! What is due of bank reading: what ordinary reading has to reply, unless a rule before the line at which that ends is one
//! that a bank sheet may not have there.

use super::cut::{cut, HEADER};
use super::list;
use crate::library::{not_canonical, Reply};
use crate::meaning::LIMIT;
use crate::text::check::shown;
use crate::text::paper::Paper;
use crate::text::reader;
use crate::text::refusal::Refusal;
use crate::text::written::Written;

pub struct Owed {
    /// what ordinary reading finds
    pub ordinary: Result<Paper, Refusal>,
    /// what the lines say before the one at which ordinary reading ends, none of which it refuses; nothing if that is
    /// before the rules
    pub fine: Paper,
    /// which of these is the first that a bank sheet may not have there, counted from 0
    pub out: Option<usize>,
}

impl Owed {
    /// What is due of a text, where so many words are lent for the table. That two ways of deciding differ is a failure of
    /// the judge.
    pub fn of(text: &[u8], table: usize) -> Result<Owed, String> {
        let ordinary = reader::due(text, table);
        let fine = fine(text, &ordinary)?;
        let (listed, own) = (by_list(&fine.rules), by_table(&fine));
        if listed != own {
            return Err(format!("the judges differ: by the list {listed:?}, by the table {own:?}\n{}", shown(text)));
        }
        Ok(Owed { ordinary, fine, out: listed })
    }

    /// What is read, or the refusal.
    pub fn read(&self) -> Result<&Paper, Reply> {
        match (self.out, &self.ordinary) {
            (Some(at), _) => Err(not_canonical(HEADER + 1 + at)),
            (None, Ok(paper)) => Ok(paper),
            (None, Err(refusal)) => Err(refusal.reply),
        }
    }
}

/// What stands before the line at which ordinary reading ends is a text by itself, once it states its own number of rules.
fn fine(text: &[u8], ordinary: &Result<Paper, Refusal>) -> Result<Paper, String> {
    let Reply { number, value } = match ordinary {
        Ok(paper) => return Ok(paper.clone()),
        Err(refusal) => refusal.reply,
    };
    let read = match (number, value) {
        // too short a table is seen when all lines are fine
        (6, _) => reader::read(text, |_| LIMIT),
        (2..=4, line) if line > HEADER => reader::read(&cut(text, line - HEADER - 1), |_| LIMIT),
        _ => return Ok(Paper { n: 1, hidden: 0, rules: vec![] }),
    };
    read.map_err(|refusal| format!("the judges differ: {:?} before line {value}\n{}", refusal.reply, shown(text)))
}

/// The first rule whose term is not in the list, or not after that of the rule before it.
fn by_list(rules: &[Written]) -> Option<usize> {
    let places: Vec<Option<usize>> = rules.iter().map(|rule| list::place(&rule.rule().term.to_string())).collect();
    (0..places.len()).find(|&at| places[at].is_none() || at > 0 && places[at] <= places[at - 1])
}

/// The first rule with which the rules so far are no longer those of their own table, in its order. They never are again
/// with further ones: what is lost is a spelling or an order.
fn by_table(paper: &Paper) -> Option<usize> {
    let Paper { n, hidden, ref rules } = *paper;
    let own = |count: usize| {
        let begun = Paper { n, hidden, rules: rules[..count].to_vec() };
        Paper::of(&begun.sheet()) == begun
    };
    if own(rules.len()) {
        return None;
    }
    let (mut least, mut most) = (0, rules.len());
    while most - least > 1 {
        let middle = (least + most) / 2;
        match own(middle) {
            true => least = middle,
            false => most = middle,
        }
    }
    Some(least)
}
