//! What kind of line is due where.

use super::lines::Lines;
use crate::usage::counted;

#[derive(Clone, Copy, PartialEq, Eq, Debug)]
pub enum Kind {
    Quantities,
    Hidden,
    Rules,
    Rule,
    /// no line: so many rule lines were announced, and all of them stand before
    Behind(usize),
}

impl Kind {
    /// The kind of the line with this number.
    pub fn of(line: usize, lines: &Lines) -> Kind {
        match (line, lines.announced()) {
            (0 | 1, _) => Kind::Quantities,
            (2, _) => Kind::Hidden,
            (3, _) => Kind::Rules,
            (_, Some(count)) if line > count.saturating_add(3) => Kind::Behind(count),
            _ => Kind::Rule,
        }
    }

    /// What is expected of such a line.
    pub fn expected(self) -> String {
        match self {
            Kind::Quantities => "quantities= and how many quantities there are, 1 to 32, as quantities=3".to_string(),
            Kind::Hidden => {
                "hidden= and the hidden quantities, increasing and joined by commas, as hidden=2,5; nothing after = \
                             where none is hidden"
                    .to_string()
            }
            Kind::Rules => "rules= and how many rule lines follow, at most 2,048, as rules=3".to_string(),
            Kind::Rule => {
                "rule= and one or two quantities, each with + or -, a colon and a bound, as rule=+1-2:5".to_string()
            }
            Kind::Behind(0) => "the end of the text, since rules=0 on line 3 announces no rule lines".to_string(),
            Kind::Behind(count) => {
                let lines = counted(count, "rule line", "rule lines");
                format!("the end of the text after {lines}, since line 3 says rules={count}")
            }
        }
    }
}
