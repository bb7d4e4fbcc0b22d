//! Bank sheets changed at one rule or several, behind their rules or before them. What is due is known from the changes:
//! the lines before the first of them are as they were, and that one ends the reading.

use super::cut::HEADER;
use super::list;
use crate::library::{malformed, past_limit, Reply};
use crate::meaning::{LIMIT, MOST_RULES};
use crate::random::Random;
use crate::sheets::Sheet;
use crate::text::drafts;
use crate::text::paper::Paper;

/// A text, and the refusal for it, if there is any. Too short a table would come after it.
pub struct Changed {
    pub text: Vec<u8>,
    pub refusal: Option<Reply>,
}

/// A bank sheet under change.
struct Bank {
    n: usize,
    /// what stands behind `rule=` on each rule line
    rules: Vec<String>,
    /// the first rule that ends a reading, counted from 0, and the number
    first: Option<(usize, u32)>,
}

/// The text of a sheet, changed in some ways or in none.
pub fn drawn(sheet: &Sheet, random: &mut Random) -> Changed {
    let paper = Paper::of(sheet);
    let rules = paper.rules.iter().map(|rule| rule.to_string()).collect();
    let mut bank = Bank { n: sheet.n, rules, first: None };
    // from the last change to the first, so that each finds the rules before it as they were
    for at in places(bank.rules.len(), random) {
        bank.change(at, random);
    }
    let lines = paper.lines();
    let header = [0, 1].map(|at| String::from_utf8_lossy(&lines[at]).into_owned());
    match random.chance(4) {
        true => bank.with_header(header, random),
        false => bank.ended(header, random),
    }
}

/// Where rules are changed, from the last to the first, with a rule between any two that stays.
fn places(rules: usize, random: &mut Random) -> Vec<usize> {
    let wanted = random.pick(&[0, 1, 1, 1, 1, 2, 2, 3]);
    let mut places: Vec<usize> = (0..wanted).filter(|_| rules > 0).map(|_| random.edge(rules)).collect();
    places.sort_by(|a, b| b.cmp(a));
    places.dedup_by(|lower, higher| *lower + 1 >= *higher);
    places
}

impl Bank {
    /// A rule that a bank sheet may not have there, or one that no sheet may have, or one that is both, which is then
    /// refused as by ordinary reading.
    fn change(&mut self, at: usize, random: &mut Random) {
        let line = if random.chance(75) { self.put_out(at, random) } else { at };
        let refused = if line == at && !self.is_out(at) || random.chance(30) { self.spoil(line, random) } else { 9 };
        self.first = Some((line, refused));
    }

    /// Makes a rule one that a bank sheet may not have there. Gives which rule that is then.
    fn put_out(&mut self, at: usize, random: &mut Random) -> usize {
        let (term, bound) = parted(&self.rules[at]);
        let place = list::place(&term).expect("a bank sheet has listed terms");
        let (last, full) = (at + 1 == self.rules.len(), self.rules.len() == MOST_RULES);
        match random.below(6) {
            // the next rule comes before it
            0 | 1 if !last => {
                self.rules.swap(at, at + 1);
                at + 1
            }
            // it comes again, with its own bound or another one
            2 if !full => {
                let other = drafts::bound(random);
                let bound = random.pick(&[bound, other]);
                self.rules.insert(at + 1, format!("{term}:{bound}"));
                at + 1
            }
            // one comes behind it that has its place before, be there such a rule or not
            3 if !full && place > 0 => {
                let earlier = list::term(random.below(place));
                self.rules.insert(at + 1, format!("{earlier}:{}", drafts::bound(random)));
                at + 1
            }
            way => {
                let (one, other) = list::parted(&term);
                // one quantity is doubled, and two stand in the other order, or one of them is doubled too
                self.rules[at] = match other {
                    "" => format!("{one}{one}:{bound}"),
                    _ if way == 5 => format!("{other}{other}:{bound}"),
                    _ => format!("{other}{one}:{bound}"),
                };
                at
            }
        }
    }

    /// Is the rule spelled as a bank sheet does not spell it?
    fn is_out(&self, at: usize) -> bool {
        list::place(&parted(&self.rules[at]).0).is_none()
    }

    /// Makes a rule one that no sheet may have. Gives the number.
    fn spoil(&mut self, at: usize, random: &mut Random) -> u32 {
        let (term, bound) = parted(&self.rules[at]);
        let (q, past, far) = (1 + random.below(self.n), self.n + 1, random.pick(&[1, -1]) * random.pick(&PAST));
        let (rule, number) = match random.below(14) {
            0..=2 => (format!("{term}:{far}"), 3),
            3 => (format!("+{past}-{q}:{bound}"), 3),
            4 => (format!("-{q}+{past}:{bound}"), 3),
            5 => (format!("-{past}{}{past}:{bound}", random.pick(&['+', '-'])), 3),
            6 => (format!("+{q}-{q}:{far}"), 3),
            7 => (format!("+{q}-{q}:{bound}"), 4),
            8 => (format!("-{q}+{q}:{bound}"), 4),
            9 => (format!("{term}:0{}", bound.unsigned_abs()), 2),
            10 => (format!("{term}:-0"), 2),
            11 => (format!("{term}{bound}:"), 2),
            12 => (format!("{term}+0{q}:{far}"), 2),
            _ => (format!("{term}:{bound}\r"), 2),
        };
        self.rules[at] = rule;
        number
    }

    /// The text with something wrong behind its rules, or nothing.
    fn ended(self, header: [String; 2], random: &mut Random) -> Changed {
        let length = self.rules.len();
        let mut behind: &[u8] = b"";
        // how many rules are stated, and which line is refused if no rule before it is
        let (stated, end) = match random.below(16) {
            0 => {
                behind = random.pick(&[&b"\n"[..], b"x", b"rule=+1:0\n", b"\0"]);
                (length, Some(length))
            }
            1 if length < MOST_RULES => (length + 1, Some(length)),
            2 if length > 0 => (length - 1, Some(length - 1)),
            3 if length > 0 => (length, Some(length - 1)),
            _ => (length, None),
        };
        let unended = stated == length && end.is_some_and(|end| end < length);
        let mut text = lines(&header, &format!("rules={stated}"), &self.rules);
        if unended {
            text.pop();
        }
        text.extend_from_slice(behind);
        // of a rule line without its end, and where a rule is one too many, it is not the rule that counts
        let first = self.first.filter(|&(at, _)| end.is_none_or(|end| at < end));
        let rule = first.map(|(at, number)| Reply { number, value: HEADER + 1 + at });
        Changed { text, refusal: rule.or(end.map(|end| malformed(HEADER + 1 + end))) }
    }

    /// The text with a line before its rules that is refused.
    fn with_header(self, [mut quantities, mut hidden]: [String; 2], random: &mut Random) -> Changed {
        let mut rules = format!("rules={}", self.rules.len());
        let way = random.below(6);
        match way {
            0 => quantities = random.pick(&["quantities=0", "quantities=33"]).into(),
            1 => quantities = random.pick(&["quantities=", "quantities=01", "quantity=1"]).into(),
            2 => hidden = format!("hidden={}", self.n + 1),
            3 => hidden = random.pick(&["hidden=1,1", "hidden=,", "hidden=01"]).into(),
            4 => rules = "rules=2049".into(),
            _ => rules = random.pick(&["rules=", "rules=+1", "rules=00"]).into(),
        }
        let refusal = if way.is_multiple_of(2) { past_limit(way / 2 + 1) } else { malformed(way / 2 + 1) };
        Changed { text: lines(&[quantities, hidden], &rules, &self.rules), refusal: Some(refusal) }
    }
}

/// Magnitudes past the limit of a sheet's bounds: one more, twice as much, which a script may have with one hidden, and
/// some that fit no smaller word.
const PAST: [i128; 6] = [LIMIT as i128 + 1, LIMIT as i128 + 1, 2 * LIMIT as i128, 1 << 32, 1 << 63, 10_i128.pow(29)];

/// The term and the bound of a rule within the limits.
fn parted(rule: &str) -> (String, i64) {
    let (term, bound) = rule.split_once(':').expect("a rule has a colon");
    (term.into(), bound.parse().expect("the bound is within the limit"))
}

/// A text of these lines.
fn lines([quantities, hidden]: &[String; 2], count: &str, rules: &[String]) -> Vec<u8> {
    let rules: String = rules.iter().map(|rule| format!("rule={rule}\n")).collect();
    format!("{quantities}\n{hidden}\n{count}\n{rules}").into_bytes()
}
