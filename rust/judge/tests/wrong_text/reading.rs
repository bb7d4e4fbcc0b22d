//! A reading, and the mistakes in its refusals and in what it leaves.

use super::{spoil, Trap, Wrong};
use judge::library::{malformed, too_short, Header, Reply, DONE, SIZE};
use judge::meaning::{size, LIMIT, NO_RULE};
use judge::text::paper::Paper;
use judge::text::reader;
use judge::text::refusal::Refusal;
use judge::text::written::{self, Written};

impl Wrong {
    pub fn reading(&self, text: &[u8], table: &mut [i64], header: &mut Header) -> Reply {
        let taken = self.taken(text);
        match self.trap {
            Trap::RefusesAll => return malformed(1),
            Trap::MostBytes(most) if text.len() > most => return SIZE,
            Trap::TableFirst => {
                if let Some(n) = stated_n(text).filter(|&n| table.len() < size(n)) {
                    return too_short(size(n));
                }
            }
            _ => {}
        }
        match reader::due(&taken, table.len()) {
            Ok(paper) => {
                self.filled(&paper, table, header);
                DONE
            }
            Err(refusal) => self.unread(&refusal, text, table, header),
        }
    }

    fn unread(&self, refusal: &Refusal, text: &[u8], table: &mut [i64], header: &mut Header) -> Reply {
        let Reply { number, value } = refusal.reply;
        let instead = |number| Reply { number, value };
        match self.trap {
            Trap::LimitBeforeForm if refusal.hides(3) => instead(3),
            Trap::CancelsBeforeLimit if number == 3 && refusal.hides(4) => instead(4),
            Trap::CancelsBeforeForm if number == 2 && refusal.hides(4) && !refusal.hides(3) => instead(4),
            Trap::LinesFromZero if (2..=4).contains(&number) => Reply { number, value: value - 1 },
            Trap::LineBefore(kind) if kind == refusal.kind => Reply { number, value: value - 1 },
            // what else is done with such numbers does not matter
            Trap::LimitsByMost if number == 3 && value > 1 => reply_to(&with_line(text, 1, b"quantities=32")),
            Trap::SecondUnlimited if refusal.kind == "rule 3" => {
                reply_to(&with_line(text, value, &first_alone(text, value)))
            }
            Trap::PassesCancelling if number == 4 => DONE,
            Trap::PassesBehind if refusal.kind == "2 behind" => self.reading(lines(text, value - 1), table, header),
            Trap::LimitOnHalf if number == 3 && doubled_within(lines(text, value), value) => DONE,
            Trap::ShortIsSize if number == 6 => SIZE,
            Trap::LentWords if number == 6 => too_short(table.len()),
            Trap::RoomForAll if number == 6 => too_short(size(32)),
            _ => refusal.reply,
        }
    }

    fn filled(&self, paper: &Paper, table: &mut [i64], header: &mut Header) {
        let mut rules: Vec<Written> = paper.rules.iter().map(|rule| self.held(rule)).collect();
        // a table keeps the smaller bound; where another is to stay the others are taken away
        match self.trap {
            Trap::KeepsLarger => rules = kept(&rules, |new, old| new > old),
            Trap::KeepsLater => rules = kept(&rules, |_, _| true),
            _ => {}
        }
        let words = written::table(paper.n, &rules);
        for (word, due) in table.iter_mut().zip(words) {
            if self.trap != Trap::LeavesPlaces || due != NO_RULE {
                *word = due;
            }
        }
        spoil(&mut table[size(paper.n)..], self.trap == Trap::WritesPastTable);
        if self.trap != Trap::LeavesQuantities {
            header.quantities = paper.n;
        }
        header.hidden = match self.trap {
            Trap::LosesLastHidden => paper.hidden & (u32::MAX >> 1),
            _ => paper.hidden,
        };
    }

    /// A rule as it is put into the table.
    fn held(&self, rule: &Written) -> Written {
        let Written { first, second, bound } = *rule;
        let doubled = second == Some(first);
        match (self.trap, second) {
            (Trap::NotHalved, _) if doubled => Written { first, second: None, bound },
            (Trap::HalvedTowardZero, _) if doubled => Written { first, second: None, bound: bound / 2 },
            (Trap::SignsStay, Some(other)) if other.quantity < first.quantity => {
                let (mut low, mut high) = (other, first);
                std::mem::swap(&mut low.sign, &mut high.sign);
                Written { first: low, second: Some(high), bound }
            }
            _ => *rule,
        }
    }
}

/// For each place the one rule that stays: a new one replaces the old one where this holds of their bounds. The place
/// is told by the table that a rule makes by itself.
fn kept(rules: &[Written], replaces: fn(i64, i64) -> bool) -> Vec<Written> {
    let mut kept: Vec<(usize, i64, Written)> = Vec::new();
    for rule in rules {
        let table = written::table(32, std::slice::from_ref(rule));
        let place = table.iter().position(|&word| word != NO_RULE).expect("a rule has a place");
        let bound = table[place];
        match kept.iter_mut().find(|held| held.0 == place) {
            Some(held) if replaces(bound, held.1) => *held = (place, bound, *rule),
            Some(_) => {}
            None => kept.push((place, bound, *rule)),
        }
    }
    kept.into_iter().map(|held| held.2).collect()
}

/// The first lines of a text, with their ends.
fn lines(text: &[u8], count: usize) -> &[u8] {
    let length = text.split_inclusive(|&byte| byte == b'\n').take(count).map(<[u8]>::len).sum();
    &text[..length]
}

/// The text with another line in the place of the one with this number.
fn with_line(text: &[u8], number: usize, line: &[u8]) -> Vec<u8> {
    let (before, through) = (lines(text, number - 1), lines(text, number));
    [before, line, b"\n", &text[through.len()..]].concat()
}

/// The rule line with this number without its second quantity.
fn first_alone(text: &[u8], number: usize) -> Vec<u8> {
    let line = &lines(text, number)[lines(text, number - 1).len()..];
    let colon = line.iter().position(|&byte| byte == b':').expect("the line is a rule");
    let signs = line[..colon].iter().enumerate().filter(|(_, byte)| matches!(byte, b'+' | b'-'));
    let second = signs.map(|(at, _)| at).nth(1).unwrap_or(colon);
    [&line[..second], line[colon..].trim_ascii_end()].concat()
}

/// The reply to a text with room for every table.
fn reply_to(text: &[u8]) -> Reply {
    reader::due(text, size(32)).map_or_else(|refusal| refusal.reply, |_| DONE)
}

/// The number of quantities that a text begins with, if its first line is acceptable.
fn stated_n(text: &[u8]) -> Option<usize> {
    let alone = [lines(text, 1), b"hidden=\nrules=0\n"].concat();
    reader::due(&alone, size(32)).ok().map(|paper| paper.n)
}

/// Has the line with this number, the last of these, a doubled term whose bound would be within the limit if it were
/// halved?
fn doubled_within(lines: &[u8], line: usize) -> bool {
    let last = lines.split(|&byte| byte == b'\n').nth(line - 1).and_then(|last| std::str::from_utf8(last).ok());
    let value = last.and_then(|last| last.strip_prefix("rule=")).and_then(|value| value.split_once(':'));
    let Some((terms, bound)) = value else {
        return false;
    };
    let (first, second) = terms.split_at(terms.len() / 2);
    first == second && bound.parse::<i64>().is_ok_and(|bound| (-LIMIT..=LIMIT).contains(&bound.div_euclid(2)))
}
